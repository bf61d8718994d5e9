//! Finds libebpf: in the folder that EBPF_LIB_DIR names, else by pkg-config. README.md says which variables count.
use std::env;
use std::path::{Path, PathBuf};
use std::process::{exit, Command};

/// The versions that have the calls of this crate: from the first one up to the second one, which breaks them.
const VERSIONS: (&str, &str) = ("0.4.0", "0.5");

fn main() {
    for name in ["EBPF_LIB_DIR", "EBPF_DYNAMIC", "PKG_CONFIG", "PKG_CONFIG_PATH", "PKG_CONFIG_LIBDIR", "DOCS_RS"] {
        println!("cargo:rerun-if-env-changed={name}");
    }
    // pages alone need no library
    if env::var_os("DOCS_RS").is_some() {
        return;
    }
    match env::var_os("EBPF_LIB_DIR") {
        Some(folder) => link_in(&PathBuf::from(folder)),
        None => link_by_pkg_config(),
    }
}

/// Ends the build with a message.
fn stop(why: &str) -> ! {
    eprintln!("ebpf-sys: the library ebpf is not found: {why}");
    eprintln!();
    eprintln!("What helps is one of these:");
    eprintln!(
        "  - install it by `tools/install.sh PREFIX` of ebpf-object, with PKG_CONFIG_PATH=PREFIX/lib/pkgconfig where"
    );
    eprintln!("    PREFIX is a folder of your own;");
    eprintln!("  - set EBPF_LIB_DIR to the folder that has libebpf.a or libebpf.so. In a checkout of ebpf-object");
    eprintln!("    `tests/c_interface.sh --build` makes examples/out/libebpf.a.");
    exit(1)
}

/// Links the library of a folder: libebpf.a if it is there, unless EBPF_DYNAMIC is 1.
fn link_in(folder: &Path) {
    let (archive, shared) = (folder.join("libebpf.a"), folder.join("libebpf.so"));
    let is_dynamic = env::var_os("EBPF_DYNAMIC").is_some_and(|it| it == "1");
    let (kind, file) = match (archive.is_file(), shared.is_file()) {
        (true, has_shared) if !(is_dynamic && has_shared) => ("static", archive),
        (_, true) => ("dylib", shared),
        _ => stop(&format!("{} has neither libebpf.a nor libebpf.so", folder.display())),
    };
    println!("cargo:rerun-if-changed={}", file.display());
    println!("cargo:rustc-link-search=native={}", folder.display());
    println!("cargo:rustc-link-lib={kind}=ebpf");
    println!("cargo:lib_dir={}", folder.display());
}

/// What pkg-config prints of the library.
fn pkg_config(words: &[&str]) -> Result<String, String> {
    let program = env::var("PKG_CONFIG").unwrap_or_else(|_| "pkg-config".to_owned());
    let told = Command::new(&program)
        .args(words)
        .output()
        .map_err(|error| format!("{program} does not run ({error}), and EBPF_LIB_DIR is not set"))?;
    let text = |bytes: Vec<u8>| String::from_utf8_lossy(&bytes).trim().to_owned();
    if told.status.success() {
        return Ok(text(told.stdout));
    }
    Err(format!("`{program} {}` says:\n{}", words.join(" "), text(told.stderr)))
}

fn link_by_pkg_config() {
    let (first, next) = VERSIONS;
    let (least, below) = (format!("ebpf >= {first}"), format!("ebpf < {next}"));
    let asked = pkg_config(&["--print-errors", "--exists", &least, &below]);
    let told = asked.and_then(|_| {
        let folder = pkg_config(&["--variable=libdir", "ebpf"])?;
        Ok((folder, pkg_config(&["--variable=includedir", "ebpf"])?))
    });
    match told {
        Ok((folder, headers)) => {
            println!("cargo:include={headers}");
            link_in(Path::new(&folder));
        }
        Err(why) => stop(&why),
    }
}
