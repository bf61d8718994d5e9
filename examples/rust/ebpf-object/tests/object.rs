//! Objects and their passes.
use ebpf_object::{
    library_version, Absence, Error, Failed, Insn, Kernel, Object, OpenOptions, OutcomeResult, Prepared, ProgramKind,
    SectionKind, Setting,
};
use std::path::Path;

const COUNTER_MAPS: [(&str, i32); 4] = [("counts", 5), (".bss", 6), (".rodata", 7), ("tables", 8)];

fn file(name: &str) -> Vec<u8> {
    let path = Path::new(env!("CARGO_MANIFEST_DIR")).join("tests/data").join(name);
    std::fs::read(path).expect("a file of the crate")
}

fn small() -> Object {
    Object::open(&file("call.o"), OpenOptions::strict()).expect("an object")
}

fn counter() -> Object {
    Object::open(&file("counter.o"), OpenOptions::strict()).expect("an object")
}

/// What has one number for an error, and what it is about.
fn refused(error: &Error) -> (u32, Option<&str>) {
    (error.number(), error.refusal().and_then(|it| it.about.as_deref()))
}

/// The types of a kernel without a type.
fn no_types() -> Vec<u8> {
    let mut types = vec![0x9f, 0xeb, 1, 0, 24, 0, 0, 0];
    types.extend_from_slice(&[0; 12]);
    types.extend_from_slice(&[1, 0, 0, 0, 0]);
    types
}

#[test]
fn things_are_listed() {
    let object = counter();
    let programs = object.programs().expect("programs");
    let rows: Vec<_> = programs.iter().map(|it| (it.name.as_str(), it.kind, it.program_type, it.slots)).collect();
    assert_eq!(rows, [("on_packet", ProgramKind::Xdp, 6, 15), ("on_wake", ProgramKind::Kprobe, 2, 13)]);
    let maps = object.maps().expect("maps");
    let names: Vec<&str> = maps.iter().map(|it| it.name.as_str()).collect();
    assert_eq!(names, [".bss", ".rodata", "counts", "tables"]);
    assert_eq!((maps[1].section_kind, maps[2].section_kind), (SectionKind::Rodata, SectionKind::BtfMaps));
    assert_eq!((maps[2].shape.max_entries, maps[3].inner.is_some()), (64, true));
    let sections = object.sections().expect("sections");
    assert!(sections.iter().any(|it| it.name == "xdp" && it.index == 6));
    assert_eq!(object.program_section("on_packet").expect("a program").as_deref(), Some("xdp"));
    assert_eq!(object.license().expect("a license").to_bytes(), b"GPL");
    assert!(object.states_license().expect("a section license"));
    assert!(!small().states_license().expect("no section license"));
    let info = object.info().expect("information");
    assert!(!info.is_big_endian && info.has_types && info.kernel_version.is_none());
    assert_eq!(object.externs(), Ok(vec![]));
}

#[test]
fn things_are_found_as_they_are_listed() {
    let object = counter();
    for map in object.maps().expect("maps") {
        assert_eq!(object.map(&map.name), Ok(map));
    }
    for program in object.programs().expect("programs") {
        assert_eq!(object.program(&program.name), Ok(program));
    }
    assert_eq!(object.map("on_packet"), Err(Error::NoMap("on_packet".into())));
    let error = object.program("counts").expect_err("a map");
    assert_eq!(error, Error::NoProgram("counts".into()));
    assert_eq!(error.to_string(), "no program has the name: counts");
}

#[test]
fn a_limit_is_kept() {
    let bytes = file("call.o");
    assert!(Object::open(&bytes, OpenOptions::lenient().within(14308)).is_ok());
    for options in [OpenOptions::lenient(), OpenOptions::strict()] {
        let error = Object::open(&bytes, options.within(14307)).expect_err("more than 14307 bytes");
        let refusal = error.refusal().expect("a refusal");
        assert_eq!((refusal.number, refusal.details.size), (157, Some(14307)));
    }
}

#[test]
fn values_are_set() {
    let mut object = counter();
    object.set_value("wanted", &42u32.to_le_bytes()).expect("a variable");
    assert_eq!(object.value("wanted").expect("a value"), [42, 0, 0, 0]);
    let (first, second) = (1u32.to_le_bytes(), 43u32.to_le_bytes());
    let settings =
        [Setting::required("wanted", &first), Setting::optional("none", &[1]), Setting::required("wanted", &second)];
    object.set_values(&settings).expect("variables");
    assert_eq!(object.map_data(".rodata").expect("data"), [43, 0, 0, 0]);
    let settings = [Setting::required("wanted", &first), Setting::required("none", &[1])];
    let error = object.set_values(&settings).expect_err("no variable");
    assert_eq!(refused(&error), (151, Some("none")));
    assert_eq!(object.map_data(".rodata").expect("data"), [43, 0, 0, 0]);
    object.set_values(&[]).expect("nothing");
    object.set_map_data(".rodata", &[1, 2, 3, 4]).expect("data");
    assert_eq!(object.value("wanted").expect("a value"), [1, 2, 3, 4]);
    assert_eq!(object.set_map_data(".rodata", &[1]), Err(Error::WrongLength(".rodata".into())));
    assert_eq!(object.value("none"), Err(Error::NoVariable("none".into())));
}

#[test]
fn sizes_are_set() {
    let mut object = counter();
    object.set_max_entries("counts", 7).expect("a map");
    object.set_value_size("counts", 16).expect("a map");
    let shape = object.map("counts").expect("a map").shape;
    assert_eq!((shape.max_entries, shape.value_size), (7, 16));
    assert_eq!(object.set_max_entries("none", 1), Err(Error::NoMap("none".into())));
    object.use_older_helpers().expect("an object");
}

#[test]
fn an_object_is_prepared_with_its_values() {
    let mut object = counter();
    object.set_value("wanted", &42u32.to_le_bytes()).expect("a variable");
    let before = object.slots("on_packet").expect("slots");
    let failed = object.prepare(&Kernel::none(), &[("counts", 5)]).expect_err("maps without descriptors");
    assert_eq!(failed.error().number(), 320);
    let (object, error) = failed.into_parts();
    assert!(matches!(error, Error::Maps(_)));
    assert_eq!(object.slots("on_packet").expect("slots"), before);
    let prepared = object.prepare(&Kernel::none(), &COUNTER_MAPS).expect("prepared");
    let slots = prepared.slots("on_packet").expect("slots");
    // its own 15 slots, and the 18 of the function that it calls; each refers to the map once
    let refers = |it: &&Insn| it.code == 0x18 && it.imm == 8;
    assert_eq!((slots.len(), slots[..15].iter().filter(refers).count()), (33, 1));
    assert_eq!(prepared.map_data(".rodata").expect("data"), [42, 0, 0, 0]);
    assert_eq!(prepared.try_clone().expect("a copy").slots("on_packet").expect("slots"), slots);
    assert_eq!(prepared.func_infos("on_packet").expect("func info").len(), 2);
    assert!(!prepared.line_infos("on_packet").expect("line info").is_empty());
}

#[test]
fn a_row_of_no_map_is_refused() {
    let failed = small().prepare(&Kernel::none(), &[("none", 5)]).expect_err("no such map");
    assert_eq!(refused(failed.error()), (321, Some("none")));
}

#[test]
fn steps_are_made_in_order() {
    let object = counter();
    let failed = object.steps().relocate_maps::<&str>(&[]).expect_err("no descriptor");
    let (steps, error) = failed.into_parts();
    let first = &steps.maps_without_descriptors::<&str>(&[]).expect("slots")[0];
    assert_eq!(refused(&error), (320, Some(first.map.as_str())));
    let mut object = steps.into_object();
    object.set_value("wanted", &42u32.to_le_bytes()).expect("no pass was made");
    let steps = object.steps().relocate_maps(&COUNTER_MAPS).expect("descriptors");
    assert!(format!("{steps:?}").contains("MapsRelocated"));
    let steps = steps.resolve_externs(&[], &[]).expect("no externs").relocate_externs().expect("no externs");
    let prepared = steps.relocate_calls().expect("linked");
    let at_once = counter().prepare(&Kernel::none(), &COUNTER_MAPS).expect("prepared");
    assert_eq!(prepared.slots("on_packet"), at_once.slots("on_packet"));
}

#[test]
fn steps_may_be_left_out() {
    let linked = small().steps().relocate_calls().expect("linked");
    assert_eq!(linked.slots("p").expect("slots").len(), 3);
    assert_eq!(linked.programs().expect("programs")[0].slots, 3);
    let unlinked = small().steps().finish();
    assert_eq!(unlinked.slots("p").expect("slots").len(), 2);
}

#[test]
fn link_maps_say_what_is_linked() {
    let object = small();
    let copies = object.link_map("p").expect("a link map");
    let rows: Vec<_> = copies.iter().map(|it| (it.name.as_str(), it.base, it.slots)).collect();
    assert_eq!(rows, [("p", 0, 2), ("f", 2, 1)]);
    let references = object.link_references("p").expect("references");
    assert_eq!((references.len(), references[0].slot, references[0].base), (1, 0, 2));
    assert!(references[0].is_call);
    assert_eq!(object.link_map("q"), Err(Error::NoProgram("q".into())));
    assert_eq!(object.link_references("q"), Err(Error::NoProgram("q".into())));
}

#[test]
fn outcomes_are_listed_before_the_passes() {
    let object = counter();
    let outcomes = object.outcomes(&no_types()).expect("outcomes");
    assert!(!outcomes.is_empty());
    for outcome in &outcomes {
        assert_eq!(outcome.result, OutcomeResult::Absent(Absence::Type));
        assert!(outcome.slot.is_some() && !outcome.section.is_empty());
    }
    assert_eq!(object.outcomes(b"types").expect_err("no types").number(), 200);
    object.steps().relocate_types(&no_types()).expect("relocated");
}

#[test]
fn a_copy_stays_as_it_is() {
    let object = small();
    let copy = object.try_clone().expect("a copy");
    let linked = object.steps().relocate_calls().expect("linked");
    assert_eq!((linked.slots("p").map(|it| it.len()), copy.slots("p").map(|it| it.len())), (Ok(3), Ok(2)));
}

#[test]
fn refusals_say_what_they_are_about() {
    let mut object = counter();
    let error = object.set_value("wanted", &[1]).expect_err("another size");
    let details = error.refusal().expect("a refusal").details;
    assert_eq!((error.number(), details.size, details.other_size), (150, Some(4), Some(1)));
    assert!(error.to_string().ends_with(": wanted, size 4, and size 1"), "{error}");
    // a name above the first room for it is whole
    let long = "n".repeat(1000);
    let error = object.set_value(&long, &[1]).expect_err("no variable");
    assert_eq!(refused(&error), (151, Some(long.as_str())));
}

#[test]
fn a_failed_prepare_becomes_an_error() {
    fn prepared(object: Object) -> Result<Prepared, Error> {
        Ok(object.prepare::<&str>(&Kernel::none(), &[])?)
    }
    assert_eq!(prepared(counter()).expect_err("no descriptors").number(), 320);
    assert!(prepared(small()).is_ok());
}

#[test]
fn what_is_read_goes_to_other_threads() {
    fn is_sent<T: Send + Sync + 'static>(value: T) -> T {
        value
    }
    let programs = is_sent(counter().programs().expect("programs"));
    let other = std::thread::spawn(move || programs.len());
    assert_eq!(other.join().expect("no panic"), 2);
    is_sent(Object::open(b"", OpenOptions::strict()).expect_err("no object"));
    is_sent(Kernel::none());
}

#[test]
fn an_object_goes_to_other_threads() {
    let object = counter();
    let other = std::thread::spawn(move || object.prepare::<&str>(&Kernel::none(), &[]).expect_err("no descriptors"));
    let (object, error) = other.join().expect("no panic").into_parts();
    assert_eq!(error.number(), 320);
    assert_eq!(object.programs().expect("programs").len(), 2);
}

#[test]
fn errors_are_small() {
    assert!(std::mem::size_of::<Error>() <= 24);
    assert!(std::mem::size_of::<Failed<Object>>() <= 32);
}

#[test]
fn the_library_has_the_version_of_the_crate() {
    let version = library_version();
    let text = format!("{}.{}.{}", version / 1_000_000, version / 1_000 % 1_000, version % 1_000);
    assert_eq!(text, env!("CARGO_PKG_VERSION"));
}
