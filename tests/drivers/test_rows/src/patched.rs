//! Values of variables that are written into the data of maps.

use crate::passes::Shown;
use ebpf_object::Object;
use std::alloc::{AllocError, Global};
use std::collections::HashMap;
use test_bare_calls::patch_map_data;
use test_cases::{Action, Files, no_action};

/// A variable's value, and whether the object has to have it, by its name.
type Values<'a> = HashMap<&'a str, (&'a [u8], bool)>;

/// The values that words ask for: a variable, whose value is the file of this name, and whether the object has to have
/// it.
fn values<'a>(
    alloc: Global,
    files: &'a Files,
    words: &[&'a str],
) -> Result<Option<Values<'a>>, AllocError> {
    let mut values = HashMap::new(alloc);
    for pair in words.chunks(2) {
        let [name, how] = pair else {
            return Ok(None);
        };
        values.insert(*name, (files.get(name), *how == "must"))?;
    }
    Ok(Some(values))
}

/// The data of `.data`.
fn put_data(text: &mut String, object: &Object) -> Result<(), AllocError> {
    if let Some(map) = object.maps.get(".data") {
        let data = map.data();
        write!(text, " {data:?}")?;
    }
    Ok(())
}

/// What writing values answers, and the data of `.data` then.
fn patched_with(
    alloc: Global,
    object: &mut Object,
    values: Values<'_>,
) -> Result<String, AllocError> {
    let mut text = patch_map_data(object, values, &Shown(alloc))?;
    put_data(&mut text, object)?;
    Ok(text)
}

/// The same of the values that words ask for.
pub fn patched(
    alloc: Global,
    files: &Files,
    object: &mut Object,
    action: &Action<'_>,
) -> Result<String, AllocError> {
    match values(alloc, files, action.words.as_slice())? {
        Some(values) => patched_with(alloc, object, values),
        None => no_action(alloc),
    }
}
