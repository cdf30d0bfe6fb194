//! Links target/staticlib/librotlantern.a, which `bindings/build` makes. ROTLANTERN_LIB names another folder.

use std::env;
use std::path::PathBuf;

fn main() {
    println!("cargo:rerun-if-env-changed=ROTLANTERN_LIB");
    let folder = env::var_os("ROTLANTERN_LIB")
        .map(PathBuf::from)
        .unwrap_or_else(|| {
            PathBuf::from(env::var_os("CARGO_MANIFEST_DIR").unwrap()).join("../../target/staticlib")
        });
    println!(
        "cargo:rerun-if-changed={}",
        folder.join("librotlantern.a").display()
    );
    println!("cargo:rustc-link-search=native={}", folder.display());
    println!("cargo:rustc-link-lib=static=rotlantern");
}
