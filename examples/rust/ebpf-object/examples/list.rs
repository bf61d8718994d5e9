//! Lists what an eBPF object file holds. usage: list FILE
use ebpf_object::{Object, OpenOptions};
use std::error::Error;

fn main() -> Result<(), Box<dyn Error>> {
    let path = std::env::args().nth(1).ok_or("usage: list FILE")?;
    let object = Object::open(&std::fs::read(path)?, OpenOptions::lenient())?;
    println!("license {}", object.license()?.to_string_lossy());
    for program in object.programs()? {
        println!("program {} type {} slots {}", program.name, program.program_type, program.slots);
    }
    for map in object.maps()? {
        let shape = map.shape;
        println!("map {} type {} key {} value {}", map.name, shape.map_type, shape.key_size, shape.value_size);
    }
    for it in object.externs()? {
        println!("extern {}{}", it.name, if it.is_weak { " weak" } else { "" });
    }
    Ok(())
}
