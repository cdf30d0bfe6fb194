//! Names the original's files, where they lie, as modules of this crate. The package's name says the size of a block, and the ground.
//!
//! ROTLANTERN_ORIGINAL is the folder that holds the original's `src`; a relative one counts from the repository's root.

use std::path::Path;
use std::{env, fs};

/// The original's files, by the module that they belong to. They are compiled in place, unchanged.
const ORIGINALS: [(&str, &[&str]); 2] = [("database", &["compact_index", "data_stream", "index_stream"]), ("util", &["id"])];

fn main() {
    let package = env::var("CARGO_PKG_NAME").unwrap();
    let manifest = env::var("CARGO_MANIFEST_DIR").unwrap();
    let folder = env::var("ROTLANTERN_ORIGINAL").unwrap_or("../shared/docs/src".into());
    let original = Path::new(&manifest).join("../../..").join(folder).join("src");
    for (module, files) in ORIGINALS {
        let mut text = String::new();
        for name in files {
            let file = original.join(module).join(name).with_extension("rs");
            let file = file.canonicalize().unwrap_or_else(|error| panic!("{}: {error}", file.display()));
            text += &format!("#[path = {file:?}]\npub mod {name};\n");
            println!("cargo:rerun-if-changed={}", file.display());
        }
        write_out(&format!("{module}.rs"), &text);
    }
    println!("cargo:rustc-check-cfg=cfg(locked)");
    let block = match package.strip_prefix("locked") {
        Some(block) => {
            println!("cargo:rustc-cfg=locked");
            block
        }
        None => package.strip_prefix("block").unwrap(),
    };
    write_out("block.rs", &format!("pub const MIN_BLOCK: usize = {block};\n"));
    println!("cargo:rerun-if-env-changed=ROTLANTERN_ORIGINAL");
}

/// Puts text into a file that the sources include.
fn write_out(name: &str, text: &str) {
    fs::write(Path::new(&env::var("OUT_DIR").unwrap()).join(name), text).unwrap();
}
