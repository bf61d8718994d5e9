//! Prints the maps of struct_ops of objects by the types of a kernel. Its first word is the file of the kernel's types, the
//! others are objects: of each its variables, and its maps or why there are none.
#![tactic(auto)]

use ebpf_btf::{Btf, Endianness};
use ebpf_object::Object;
use ebpf_parts::ParseMode;
use ebpf_struct_ops::{StructOpsMap, struct_ops_maps, struct_ops_variables};
use std::{env, fs, io};

/// Prints a map.
fn print_map(rt: &HostRuntime, map: &StructOpsMap) -> io::Result<()> {
    let (name, link, size) = (map.name.as_str(), u32::from(map.is_link), map.value.len());
    println!(rt; "map {name} link {link} value_type {} size {size}", map.value_type_id)?;
    print!(rt; "  bytes ")?;
    for byte in map.value.iter() {
        print!(rt; "{byte:02x}")?;
    }
    println!(rt; "")?;
    for program in map.programs.iter() {
        let (name, offset, member) = (program.program.as_str(), program.offset, program.member);
        let id = map.struct_id;
        println!(rt; "  program {name} offset {offset} attach_type {member} attach_btf_id {id}")?;
    }
    Ok(())
}

/// Prints the variables of an object.
fn print_variables(rt: &HostRuntime, file: &[u8], object: &Object) -> io::Result<()> {
    match struct_ops_variables(rt.alloc(), file, object) {
        Ok(variables) => {
            for variable in variables.iter() {
                let (created, link) = (u32::from(variable.is_created), u32::from(variable.is_link));
                println!(rt; "variable {} created {created} link {link}", variable.name.as_str())?;
            }
            Ok(())
        }
        Err(error) => println!(rt; "no variables: {error}"),
    }
}

/// Prints the maps of an object.
fn print_maps(rt: &HostRuntime, file: &[u8], object: &Object, kernel: &Btf) -> io::Result<()> {
    match struct_ops_maps(rt.alloc(), file, object, kernel) {
        Ok(maps) => {
            for map in maps.iter() {
                print_map(rt, map)?;
            }
            Ok(())
        }
        Err(error) => println!(rt; "refused: {error}"),
    }
}

/// Prints the variables and the maps of the object of a file.
fn print_object(rt: &HostRuntime, path: &str, kernel: &Btf) -> io::Result<()> {
    println!(rt; "object {path}")?;
    let file = fs::read(rt, path)?;
    match Object::parse_as(rt.alloc(), file.as_slice(), ParseMode::Lenient) {
        Ok(object) => {
            print_variables(rt, file.as_slice(), &object)?;
            print_maps(rt, file.as_slice(), &object, kernel)
        }
        Err(error) => println!(rt; "no object: {error}"),
    }
}

fn main(rt: HostRuntime) -> io::Result<()> {
    let mut words = env::args(&rt)?.skip(1);
    let Some(path) = words.next() else {
        return Ok(());
    };
    let types = fs::read(&rt, path.as_str())?;
    match Btf::parse(rt.alloc(), types.as_slice(), Endianness::Little) {
        Ok(kernel) => {
            for word in words {
                print_object(&rt, word.as_str(), &kernel)?;
            }
            Ok(())
        }
        Err(error) => println!(rt; "no types: {error}"),
    }
}
