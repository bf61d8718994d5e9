//! What a loader asks for beside the passes.
use ebpf_object::{
    attach_target, attach_target_with, Absence, AttachTarget, Error, KconfigKind, Kernel, Object, OpenOptions,
    OutcomeResult, ReasonKind, Types,
};
use std::path::Path;

fn file(name: &str) -> Vec<u8> {
    let path = Path::new(env!("CARGO_MANIFEST_DIR")).join("tests/data").join(name);
    std::fs::read(path).expect("a file of the crate")
}

#[test]
fn kconfig_externs_are_defined() {
    let mut object = Object::open(&file("kconfig.o"), OpenOptions::lenient()).expect("an object");
    let externs = object.kconfig().expect("externs");
    let rows: Vec<_> = externs.iter().map(|it| (it.name.as_str(), it.size, it.kind, it.is_weak)).collect();
    assert!(rows.contains(&("LINUX_KERNEL_VERSION", 4, KconfigKind::Integer, false)));
    assert!(rows.contains(&("CONFIG_DEFAULT_HOSTNAME", 16, KconfigKind::String, true)));
    let config = b"CONFIG_HZ=250\nCONFIG_DEFAULT_HOSTNAME=\"(none)\"\n";
    let hertz = object.kconfig_value("CONFIG_HZ", config).expect("an extern");
    assert_eq!(hertz.as_deref(), Some(&250u64.to_le_bytes()[..]));
    assert_eq!(object.kconfig_value("LINUX_KERNEL_VERSION", config), Ok(None));
    assert_eq!(object.kconfig_value("CONFIG_NONE", config), Err(Error::NoExtern("CONFIG_NONE".into())));
    let version = object.kconfig_number("LINUX_KERNEL_VERSION", 0x60c00).expect("a value");
    assert_eq!(version, 0x60c00u32.to_le_bytes());
    let error = object.define_kconfig(&[]).expect_err("no version");
    assert!(matches!(&error, Error::Kconfig(it) if it.name == "kconfig: NoValue" && it.number == 904), "{error}");
    let values: [(&str, &[u8]); 2] = [("CONFIG_HZ", &250u64.to_le_bytes()), ("LINUX_KERNEL_VERSION", &version)];
    object.define_kconfig(&values).expect("defined");
    let data = object.map_data(".kconfig").expect("data");
    assert_eq!((&data[..8], &data[8..12]), (&250u64.to_le_bytes()[..], &version[..]));
}

#[test]
fn types_are_made_for_the_kernel() {
    let object = Object::open(&file("kconfig.o"), OpenOptions::lenient()).expect("an object");
    let types = object.kernel_types(&file("kconfig.o")).expect("types");
    assert_eq!(types[..2], [0x9f, 0xeb]);
    assert_eq!(object.kernel_types(b"no file").expect_err("no file").number(), 700);
    for (section, answer) in [
        ("xdp", AttachTarget::NotWanted),
        ("fentry", AttachTarget::Unnamed),
        ("fentry/no_such", AttachTarget::NotFound),
    ] {
        assert_eq!(attach_target(section, &types), Ok(answer));
    }
    assert!(matches!(attach_target("fentry/f", b"no types"), Err(Error::Types(_))));
}

#[test]
fn variables_are_listed() {
    let object = Object::open(&file("counter.o"), OpenOptions::strict()).expect("an object");
    let variables = object.variables().expect("variables");
    let wanted = variables.iter().find(|it| it.name == "wanted").expect("a variable");
    assert_eq!((wanted.map.as_str(), wanted.offset, wanted.size), (".rodata", 0, 4));
    assert_eq!(object.value("wanted").expect("a value"), [7, 0, 0, 0]);
}

#[test]
fn initial_values_are_listed() {
    let bytes = file("counter.o");
    let object = Object::open(&bytes, OpenOptions::strict()).expect("an object");
    assert_eq!(object.initial_slots(&bytes), Ok(vec![]));
    let error = object.initial_slots(b"no file").expect_err("no file");
    assert!(matches!(&error, Error::InitialSlots(it) if it.number == 800), "{error}");
}

/// Types that are read once give what their bytes give, as often as they are used.
#[test]
fn types_are_read_once() {
    let bytes = file("counter.o");
    let object = Object::open(&bytes, OpenOptions::lenient()).expect("an object");
    let types = object.kernel_types(&bytes).expect("types");
    let read = Types::read(&types).expect("the same types");
    assert!(matches!(Types::read(b"no types"), Err(Error::Types(it)) if it.number == 200));
    for section in ["xdp", "fentry", "fentry/count", "fentry/none"] {
        assert_eq!(attach_target_with(section, &read), attach_target(section, &types));
    }
    assert_eq!(object.outcomes_with(&read), object.outcomes(&types));
    let least = object.least_types(&read).expect("no id is needed");
    assert_eq!(object.outcomes(&least), object.outcomes(&types));
    let maps = [("counts", 5), (".bss", 6), (".rodata", 7), ("tables", 8)];
    let kernel = Kernel::none().with_types(types.clone());
    let copy = object.try_clone().expect("a copy");
    let steps = object.try_clone().expect("a copy").steps();
    let steps = steps.relocate_types_with(&read).expect("relocated").relocate_maps(&maps).expect("descriptors");
    let steps = steps.resolve_externs_with(&read, &[]).expect("externs").relocate_externs().expect("externs");
    let linked = steps.relocate_calls().expect("linked");
    let prepared = copy.prepare(&kernel, &maps).expect("prepared");
    let with = object.prepare_with(&read, &[], &maps).expect("prepared");
    for program in ["on_packet", "on_wake"] {
        assert_eq!(with.slots(program), prepared.slots(program));
        assert_eq!(linked.slots(program), prepared.slots(program));
    }
}

/// The kernel of `counter.o` itself has all but its helpers and map types; one without types lacks what is asked of tasks.
#[test]
fn verdicts_have_reasons() {
    let bytes = file("counter.o");
    let object = Object::open(&bytes, OpenOptions::lenient()).expect("an object");
    let own = Types::read(&object.kernel_types(&bytes).expect("types")).expect("the same types");
    let verdict = object.check(&own).expect("a verdict");
    assert!(verdict.is_ok && verdict.reasons.is_empty(), "{verdict:?}");
    assert_eq!((verdict.programs_ok, verdict.programs_break, verdict.programs_without_target), (2, 0, 0));
    let mut empty = vec![0x9f, 0xeb, 1, 0, 24, 0, 0, 0];
    empty.extend([0, 0, 0, 0, 0, 0, 0, 0, 0, 0, 0, 0, 1, 0, 0, 0, 0]);
    let types = Types::read(&empty).expect("no types");
    let verdict = object.check(&types).expect("a verdict");
    assert!(!verdict.is_ok && verdict.programs_break > 0, "{verdict:?}");
    let reason = verdict.reasons.iter().find(|it| it.kind == ReasonKind::Poisoned).expect("a poisoned slot");
    let outcome = &object.outcomes_with(&types).expect("outcomes")[reason.relocation.expect("a relocation")];
    let (slot, of) = (reason.slot.expect("a slot"), outcome.slot.expect("a slot"));
    assert_eq!((slot.section, slot.address, slot.function_slot), (of.section, of.address, of.slot));
    assert_eq!(outcome.result, OutcomeResult::Absent(Absence::Type));
}

/// An object without arenas and maps of struct_ops; its own bytes are no other file.
#[test]
fn other_maps_stay() {
    let bytes = file("counter.o");
    let mut object = Object::open(&bytes, OpenOptions::lenient()).expect("an object");
    let types = Types::read(&object.kernel_types(&bytes).expect("types")).expect("the same types");
    assert_eq!(object.struct_ops_maps(&bytes, &types), Ok(vec![]));
    assert!(matches!(object.struct_ops_maps(b"no file", &types), Err(Error::StructOps(it)) if it.number == 1200));
    let maps = object.maps();
    assert_eq!(object.complete_maps(&bytes, 4096), Ok(()));
    assert_eq!(object.maps(), maps);
    assert!(matches!(object.complete_maps(b"no file", 4096), Err(Error::CompletedMaps(it)) if it.number == 1100));
}

#[test]
fn what_is_wanted_is_listed() {
    let object = Object::open(&file("counter.o"), OpenOptions::lenient()).expect("an object");
    assert_eq!(object.wants_symbols(), Ok(false));
    let all = object.maps_without_descriptors::<&str>(&[]).expect("slots");
    assert!(["counts", ".bss", ".rodata", "tables"].iter().all(|map| all.iter().any(|it| it.map == *map)));
    let rest = object.maps_without_descriptors(&[("counts", 5), ("none", 6)]).expect("slots");
    assert_eq!(rest, all.iter().filter(|it| it.map != "counts").cloned().collect::<Vec<_>>());
    let slots = object.slots("on_packet").expect("slots");
    let program = object.program("on_packet").expect("a program");
    let own: Vec<_> = all.iter().filter(|it| it.section == program.section && it.address == program.address).collect();
    assert!(!own.is_empty() && own.iter().all(|it| slots[it.slot].code == 0x18));
}
