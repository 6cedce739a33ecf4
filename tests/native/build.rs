//! Links libdzintrulo.a from the folder that DZINTRULO_LIB_DIR names.

use std::{env, path::PathBuf};

fn main() {
    println!("cargo:rerun-if-env-changed=DZINTRULO_LIB_DIR");
    let folder = env::var_os("DZINTRULO_LIB_DIR")
        .map(PathBuf::from)
        .expect("DZINTRULO_LIB_DIR must name the folder of libdzintrulo.a, as target/staticlib in full");
    // cargo runs this script in its own folder, so a relative name would mean something else than its giver thought.
    assert!(folder.is_absolute(), "DZINTRULO_LIB_DIR must be an absolute path, not {folder:?}");

    println!("cargo:rerun-if-changed={}", folder.join("libdzintrulo.a").display());
    println!("cargo:rustc-link-search=native={}", folder.display());
    println!("cargo:rustc-link-lib=static=dzintrulo");
}
