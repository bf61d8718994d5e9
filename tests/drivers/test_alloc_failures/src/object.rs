//! Calls on an object.

use crate::loader::on_loader;
use crate::passes::pass;
use crate::subject::{Calls, Making, Marked, Shown, Subject};
use ebpf_object::Object;
use ebpf_parts::ParseMode;
use ebpf_parts::insn::bpf_insn;
use std::io;
use test_bare_calls::{link_map, on_copy, on_file, on_parsed, text_sections};
use test_marked_calls::{Call, changed_map, map_by_info, mix, of_maps, on_ext, on_map, say};

/// A call on one of the parts of an object.
fn on_part(object: &Object, call: &Call<'_>) -> io::Result<()> {
    match (object.maps.get(call.word), &object.btf_ext) {
        (Some(map), _) => on_map(map, call),
        (None, Some(ext)) => on_ext(ext, call),
        (None, None) => call.miss(),
    }
}

/// A call on what an object keeps.
fn on_kept(object: &Object, call: &Call<'_>) -> io::Result<()> {
    let alloc = call.rt.alloc();
    match call.name {
        "kept_still" => read_object(object, call),
        "kept_text_sections" => text_sections(alloc, object, &Marked(*call)),
        "kept_link_map" => link_map(alloc, object, call.word, &Marked(*call)),
        _ => on_part(object, call),
    }
}

/// What is asked of an object, and the keys of some programs' functions.
fn of_object(object: &Object) -> u64 {
    let numbers = [
        u64::from(object.has_btf_relocations()),
        u64::from(object.has_typed_ksyms()),
        u64::from(object.has_strong_typed_ksyms()),
    ];
    let mut seen = mix(0, &numbers);
    for name in ["p", "on_wake", "on_enter"] {
        if let Some(program) = object.programs.get(name) {
            let (section, address) = program.function_key();
            seen = mix(seen, &[section as u64, address]);
        }
    }
    seen
}

/// Writes the registers of a slot into another, the one in place of the other.
fn exchange(written: &mut bpf_insn, slot: &bpf_insn) {
    let (target, source) = (slot.dst_reg(), slot.src_reg());
    if target < 16 && source < 16 {
        written.set_src_reg(target);
        written.set_dst_reg(source);
    }
}

/// The registers of slots, written into one.
fn of_slots(object: &Object) -> u64 {
    let mut written = bpf_insn::default();
    for (_, function) in object.functions.iter() {
        for slot in function.instructions.iter() {
            exchange(&mut written, slot);
        }
    }
    u64::from(written.regs)
}

/// Reads an object, and makes maps without lists.
pub fn read_object(object: &Object, call: &Call<'_>) -> io::Result<()> {
    call.begin();
    let read = [of_maps(&object.maps), of_object(object), of_slots(object)];
    let made = [changed_map(call.rt.alloc()), map_by_info(call.rt.alloc())];
    call.tell((read, made))
}

/// Parses the bytes.
pub fn parse(bytes: &[u8], call: &Call<'_>) -> io::Result<()> {
    call.begin();
    on_file(call.rt.alloc(), bytes, Making(*call))
}

/// Copies the object.
fn clone(object: &Object, call: &Call<'_>) -> io::Result<()> {
    call.begin();
    on_copy(object, Making(*call))
}

impl Shown for Object {
    fn show(&self, rt: &HostRuntime, text: &str) -> io::Result<()> {
        let file = (
            &self.endianness,
            &self.license,
            &self.kernel_version,
            &self.section_infos,
            &self.symbol_table,
            &self.relocations,
        );
        let types = (&self.btf, &self.btf_ext, &self.programs);
        let changed = (&self.externs, &self.maps, &self.functions);
        say(rt, text, (file, types, changed))
    }
}

impl Subject for Object {
    fn make(&mut self, call: &Call<'_>) -> io::Result<()> {
        match call.name {
            "clone" => clone(self, call),
            _ if call.name.starts_with("kept_") => on_kept(self, call),
            _ if call.name.starts_with("loader_") => on_loader(self, call),
            _ => pass(self, call),
        }
    }
}

/// Makes the calls on the object that the bytes are by a parse mode.
pub fn on_object<'a>(
    bytes: &[u8],
    mode: ParseMode,
    front: &'a [String],
    last: &Call<'a>,
) -> io::Result<()> {
    let calls = Calls {
        front,
        last: *last,
        refusal: "no object: ",
    };
    on_parsed(last.rt.alloc(), bytes, mode, calls)
}
