//! Links the proved code, where the feature `border` asks for it.

use std::env;
use std::path::Path;

fn main() {
    if env::var_os("CARGO_FEATURE_BORDER").is_some() {
        let folder = Path::new(&env::var("CARGO_MANIFEST_DIR").unwrap()).join("../target/staticlib");
        println!("cargo:rustc-link-search=native={}", folder.display());
        println!("cargo:rustc-link-lib=static=rotlantern");
        println!("cargo:rerun-if-changed={}", folder.join("librotlantern.a").display());
    }
}
