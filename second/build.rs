//! Links the static library that this program is compared with.

use std::{env, fs};

fn main() {
    println!("cargo:rerun-if-env-changed=TAHLIRUZ_LIB_DIR");
    // Without features nothing is linked, so the unit tests run alone.
    if env::var_os("CARGO_FEATURE_CHECK").is_none() {
        return;
    }
    let Some(given) = env::var_os("TAHLIRUZ_LIB_DIR") else {
        panic!("set TAHLIRUZ_LIB_DIR to the folder of libtahliruz.a, or use --no-default-features");
    };
    let folder = fs::canonicalize(&given)
        .unwrap_or_else(|error| panic!("TAHLIRUZ_LIB_DIR {}: {error}", given.to_string_lossy()));
    let folder = folder.display();
    println!("cargo:rustc-link-search=native={folder}");
    println!("cargo:rustc-link-lib=static=tahliruz");
    println!("cargo:rerun-if-changed={folder}/libtahliruz.a");
}
