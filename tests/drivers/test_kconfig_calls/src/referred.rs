//! Externs that a function loads.

use super::asked::{Question, ask};
use super::defined::{defines, has_maps, has_symbols};
use super::objects::kconfig_object;
use ebpf_base::{ByKey, ByOffset, BySection, Text};
use ebpf_model::Function;
use ebpf_object::Object;
use ebpf_parts::Relocation;
use ebpf_parts::insn::bpf_insn;
use std::alloc::{AllocError, Global};
use std::fmt::Debug;
use std::test::Fail;
use test_bare_calls::{Listener, relocate_maps};
use test_same::{same, same_bytes};
use test_types::externs::Extern;
use test_types::functions::function_of;

/// A load of 16 bytes, whose second half adds 2.
const LOAD: [bpf_insn; 2] = [
    bpf_insn {
        code: 0x18,
        regs: 1,
        off: 0,
        imm: 2,
    },
    bpf_insn {
        code: 0,
        regs: 0,
        off: 0,
        imm: 0,
    },
];

/// The relocation of the load, to the second symbol.
const RELOCATION: Relocation = Relocation {
    offset: 0,
    size: 64,
    symbol_index: 1,
};

/// Two externs, the second of which a function loads.
const EXTERNS: [Extern; 2] = [("CONFIG_HZ", 5, false), ("CONFIG_SHORT", 4, false)];

/// A function of one load.
fn loading(alloc: Global) -> Result<Function, AllocError> {
    let instructions = Vec::from_slice(alloc, &LOAD)?;
    let name = Text::from_str(alloc, "f")?;
    Ok(function_of(alloc, name, instructions))
}

fn add_function(alloc: Global, functions: &mut ByKey<Function>) -> Result<(), AllocError> {
    functions.insert((3, 0), loading(alloc)?)?;
    Ok(())
}

fn add_relocations(
    alloc: Global,
    relocations: &mut BySection<ByOffset<Relocation>>,
) -> Result<(), AllocError> {
    let mut loaded = ByOffset::new(alloc);
    loaded.insert(0, RELOCATION)?;
    relocations.insert(3, loaded)?;
    Ok(())
}

/// Adds the function and its relocations.
fn add_load(alloc: Global, object: &mut Object) -> Result<(), AllocError> {
    add_function(alloc, &mut object.functions)?;
    add_relocations(alloc, &mut object.relocations)
}

/// The data of the map of externs; none where there is no map.
fn data(object: &Object) -> &[u8] {
    match object.maps.get(".kconfig") {
        Some(map) => map.data(),
        None => &[],
    }
}

/// Answers as texts.
#[derive(Clone, Copy)]
struct AsText(Global);

impl Listener for AsText {
    type Told = Result<String, AllocError>;

    fn hears<T: Debug, E: Debug>(&self, answer: &Result<T, E>) -> Result<String, AllocError> {
        format!(in self.0; "{answer:?}")
    }
}

/// Fails where writing the descriptor 7 of the map of externs is refused.
fn is_written(alloc: Global, object: &mut Object) -> Result<(), Fail> {
    let text = relocate_maps(alloc, object, &[(".kconfig", 7)], &AsText(alloc))?;
    same(text.as_str(), "Ok(())")
}

/// The slots of the function; none where there is no function.
fn slots(object: &Object) -> &[bpf_insn] {
    match object.functions.get((3, 0)) {
        Some(function) => function.instructions.as_slice(),
        None => &[],
    }
}

/// Fails where the slots of the function aren't these, by their source registers and immediates.
fn has_slots(alloc: Global, object: &Object, want: &str) -> Result<(), Fail> {
    let mut text = String::new(alloc);
    for slot in slots(object) {
        write!(text, "{}:{} ", slot.src_reg(), slot.imm)?;
    }
    same(text.as_str(), want)
}

/// Fails where the load doesn't refer to the map.
pub fn refers(alloc: Global, object: &mut Object) -> Result<(), Fail> {
    add_load(alloc, object)?;
    let given: [(&str, &[u8]); 2] = [("CONFIG_SHORT", &[5, 6]), ("CONFIG_HZ", &[1, 2, 3, 4])];
    defines(alloc, object, &given, "Ok(())")?;
    same_bytes(data(object), &[1, 2, 3, 4, 5, 6])?;
    is_written(alloc, object)?;
    has_slots(alloc, object, "2:7 0:6 ")
}

#[test]
fn loads_refer_to_the_map(rt: HostRuntime) -> Result<(), Fail> {
    let made = kconfig_object(rt.alloc(), &EXTERNS);
    ask(rt.alloc(), made, Question::Refers)
}

/// Fails where a value that misses, or one of another size, isn't refused.
fn refuses(alloc: Global, object: &mut Object) -> Result<(), Fail> {
    let missing = "Err(NoValue { name: \"CONFIG_HZ\" })";
    defines(alloc, object, &[("CONFIG_SHORT", &[5])], missing)?;
    let given: [(&str, &[u8]); 2] = [("CONFIG_SHORT", &[5]), ("CONFIG_HZ", &[1, 2, 3, 4])];
    let wrong = "Err(WrongSize { name: \"CONFIG_SHORT\", size: 2, length: 1 })";
    defines(alloc, object, &given, wrong)
}

/// Fails where it isn't refused, or where that changes the object.
pub fn is_refused(alloc: Global, object: &mut Object) -> Result<(), Fail> {
    add_load(alloc, object)?;
    refuses(alloc, object)?;
    has_maps(object, 0)?;
    let symbols = "Some(\"CONFIG_HZ\") None 0 false\nSome(\"CONFIG_SHORT\") None 0 false\n";
    has_symbols(alloc, object, symbols)
}

#[test]
fn refuses_missing_and_wrong_values(rt: HostRuntime) -> Result<(), Fail> {
    let made = kconfig_object(rt.alloc(), &EXTERNS);
    ask(rt.alloc(), made, Question::Refused)
}
