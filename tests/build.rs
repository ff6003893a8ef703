//! Links the static libraries that `rt lib` makes.

use std::env;

fn main() {
    let package = env::var("CARGO_MANIFEST_DIR").expect("cargo names the package's directory");
    for archive in ["message_c", "ring_c", "cover_light_c"] {
        let folder = format!("{package}/../crates/{archive}/out");
        println!("cargo:rustc-link-search=native={folder}");
        println!("cargo:rustc-link-lib=static={archive}");
        // A new archive is linked anew; without this line an old one would be tested.
        println!("cargo:rerun-if-changed={folder}/lib{archive}.a");
    }
    println!("cargo:rerun-if-changed=build.rs");
}
