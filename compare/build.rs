//! Names the Rust's own files to the compiler, unchanged and where they stand.
use std::env;
use std::fs;
use std::path::Path;
use std::path::PathBuf;
use std::process::exit;

fn main() {
    println!("cargo:rerun-if-env-changed=THBENGAROU_RUST");
    println!("cargo:rerun-if-changed=build.rs");
    let here = PathBuf::from(env::var_os("CARGO_MANIFEST_DIR").unwrap());
    let source = match env::var_os("THBENGAROU_RUST") {
        Some(given) => PathBuf::from(given),
        None => here.join("../../shared/docs/src"),
    };
    let mut modules = String::new();
    for name in ["imapb", "length", "st1010"] {
        let file = source.join(format!("crates/tst-core/src/klv/{name}.rs"));
        let Ok(file) = file.canonicalize() else {
            eprintln!(
                "there is no {}: set THBENGAROU_RUST to the folder of the Rust's sources",
                file.display()
            );
            exit(1);
        };
        println!("cargo:rerun-if-changed={}", file.display());
        modules += &format!("#[path = {file:?}]\npub mod {name};\n");
    }
    let out = env::var_os("OUT_DIR").unwrap();
    fs::write(Path::new(&out).join("klv.rs"), modules).unwrap();
}
