//! Links libratchetelm.a from the folder in RATCHETELM_LIB, else from the repository's target/lib or, in the tarball, from its lib.
//!
//! Where it isn't there a warning says so and the build goes on: the documentation needs no library, and the linker names it.
use std::path::{Path, PathBuf};
use std::{env, process};

const FILE: &str = "libratchetelm.a";

fn folder() -> PathBuf {
    let Some(named) = env::var_os("RATCHETELM_LIB").filter(|name| !name.is_empty()) else {
        let manifest = env::var_os("CARGO_MANIFEST_DIR").expect("cargo sets CARGO_MANIFEST_DIR");
        let [made, unpacked] = ["../target/lib", "../lib"].map(|at| Path::new(&manifest).join(at));
        let there = unpacked.join(FILE).is_file() && !made.join(FILE).is_file();
        return if there { unpacked } else { made };
    };
    // cargo runs this in the crate's folder, and doesn't tell in which one RATCHETELM_LIB was set.
    let named = PathBuf::from(named);
    if named.is_relative() {
        eprintln!(
            "RATCHETELM_LIB is {}, a relative path: give cargo an absolute one, as RATCHETELM_LIB=\"$PWD/{0}\"",
            named.display()
        );
        process::exit(1);
    }
    named
}

fn main() {
    println!("cargo:rerun-if-env-changed=RATCHETELM_LIB");
    let folder = folder();
    let library = folder.join(FILE);
    println!("cargo:rerun-if-changed={}", library.display());
    if !library.is_file() {
        println!(
            "cargo:warning={} isn't there. `make lib` in the repository makes it; RATCHETELM_LIB may name another folder",
            library.display()
        );
    }
    println!("cargo:rustc-link-search=native={}", folder.display());
    println!("cargo:rustc-link-lib=static=ratchetelm");
}
