//! The outcomes of the pass over maps: the places, the names of maps, the offsets in their data, and a refusal; and those
//! that come with the finished object.

use super::variables::object;
use ebpf_base::ByOffset;
use ebpf_object::obj::Object;
use ebpf_object::prepare::{NO_SYMBOLS, Steps};
use ebpf_outcomes::{AskedOutcomes, Edit, MapOutcome, PreparedWithOutcomes, SlotFault, map_outcomes, prepare_with_outcomes};
use ebpf_parts::Relocation;
use std::alloc::{AllocError, Global};
use std::test::Fail;
use test_same::shows;

/// Puts a relocation at an offset of the section of the function `f`.
fn refer(object: &mut Object, alloc: Global, offset: u64, symbol_index: usize) -> Result<(), AllocError> {
    let mut table = ByOffset::new(alloc);
    table.insert(offset, Relocation { offset, size: 64, symbol_index })?;
    object.relocations.insert(1, table)?;
    Ok(())
}

/// An outcome in words.
fn told(alloc: Global, outcome: &MapOutcome) -> Result<String, AllocError> {
    let name = match &outcome.map {
        Some(name) => name.as_str(),
        None => "none",
    };
    let (slot, by_symbol) = (outcome.slot.slot, outcome.by_symbol);
    match outcome.slot.result {
        Ok(Edit::Pair(made, next)) => {
            let descriptor = made.imm;
            format!(in alloc; "slot {slot} map {name} {by_symbol} descriptor {descriptor} offset {next}")
        }
        Ok(_) => format!(in alloc; "slot {slot} map {name} {by_symbol} itself"),
        Err(SlotFault::InvalidOffset) => format!(in alloc; "slot {slot} map {name} invalid offset"),
        Err(_) => format!(in alloc; "slot {slot} map {name} refused"),
    }
}

/// The outcomes in words, where descriptor 7 is that of `.data`.
fn all_told(alloc: Global, object: &Object) -> Result<Vec<String>, AllocError> {
    let mut texts = Vec::new(alloc);
    let outcomes = map_outcomes(alloc, object, &[(".data", 7)])?;
    for outcome in outcomes.iter() {
        texts.push(told(alloc, outcome)?)?;
    }
    Ok(texts)
}

#[test]
fn tells_maps_of_slots(rt: HostRuntime) -> Result<(), Fail> {
    let alloc = rt.alloc();
    let mut object = object(alloc)?;
    shows(alloc, &all_told(alloc, &object)?, "[]")?;
    refer(&mut object, alloc, 0, 2)?;
    let want = "[\"slot 0 map .data false descriptor 7 offset 4\"]";
    shows(alloc, &all_told(alloc, &object)?, want)?;
    refer(&mut object, alloc, 8, 2)?;
    shows(alloc, &all_told(alloc, &object)?, "[\"slot 1 map .data invalid offset\"]")?;
    refer(&mut object, alloc, 4, 2)?;
    shows(alloc, &all_told(alloc, &object)?, "[\"slot 0 map .data invalid offset\"]")
}

/// The outcomes of a finished object in words, with those of its slots that aren't as their outcome says.
fn finished(alloc: Global, prepared: &PreparedWithOutcomes) -> Result<Vec<String>, AllocError> {
    let mut texts = Vec::new(alloc);
    for outcome in prepared.maps.iter() {
        texts.push(told(alloc, outcome)?)?;
        let Some(function) = prepared.object.functions.get(outcome.slot.key) else {
            texts.push(format!(in alloc; "no function")?)?;
            continue;
        };
        let (slots, slot) = (function.instructions.as_slice(), outcome.slot.slot);
        if let Ok(Edit::Pair(made, next)) = outcome.slot.result {
            if slots[slot].imm != made.imm || slots[slot + 1].imm != next {
                texts.push(format!(in alloc; "slot {slot} differs")?)?;
            }
        }
    }
    Ok(texts)
}

/// An object after the pass over maps, with the outcomes that are asked for, in words.
fn prepared(alloc: Global, object: &Object, asked: AskedOutcomes) -> Result<Vec<String>, Fail> {
    let descriptors = [(".data", 7)];
    let steps = Steps::none().with_descriptors(&descriptors);
    match prepare_with_outcomes(alloc, object, &steps, asked, NO_SYMBOLS) {
        Ok(prepared) => Ok(finished(alloc, &prepared)?),
        Err(_) => Err(Fail::new("the passes refuse the object")),
    }
}

#[test]
fn gives_outcomes_with_the_object(rt: HostRuntime) -> Result<(), Fail> {
    let alloc = rt.alloc();
    let mut object = object(alloc)?;
    refer(&mut object, alloc, 0, 2)?;
    let want = "[\"slot 0 map .data false descriptor 7 offset 4\"]";
    shows(alloc, &prepared(alloc, &object, AskedOutcomes::ALL)?, want)?;
    shows(alloc, &prepared(alloc, &object, AskedOutcomes::NONE)?, "[]")
}
