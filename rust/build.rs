//! Links target/staticlib/libhandlebars.a of this repository, or the one in the folder that ZERWYDD_LIB names.

use std::env;
use std::path::PathBuf;
use std::process::exit;

fn main() {
    let here = PathBuf::from(env::var("CARGO_MANIFEST_DIR").expect("cargo sets it"));
    let folder = env::var_os("ZERWYDD_LIB").map_or_else(|| here.join("../target/staticlib"), PathBuf::from);
    let library = folder.join("libhandlebars.a");
    println!("cargo:rerun-if-env-changed=ZERWYDD_LIB");
    println!("cargo:rerun-if-changed={}", library.display());
    if !library.is_file() {
        eprintln!("{} is missing; `tools/staticlib` makes it", library.display());
        exit(1);
    }
    println!("cargo:rustc-link-search=native={}", folder.display());
    println!("cargo:rustc-link-lib=static=handlebars");
}
