//! Links the static archive of the agent.

use std::env;
use std::path::PathBuf;

fn main() {
    println!("cargo:rerun-if-env-changed=SAVORYLATCH_LIB");
    let home = PathBuf::from(env::var_os("CARGO_MANIFEST_DIR").expect("cargo sets it"));
    // Made absolute, because the linker runs in another folder than this program.
    let folder = match env::var_os("SAVORYLATCH_LIB") {
        Some(folder) => home.join(folder),
        None => home.join("../../target/staticlib"),
    };
    let archive = folder.join("libsavorylatch.a");
    println!("cargo:rerun-if-changed={}", archive.display());
    if !archive.is_file() {
        panic!(
            "there is no archive {}\n\
             Make it with `./build library` in the repository's root, \
             or set SAVORYLATCH_LIB to the full path of the folder that holds libsavorylatch.a.",
            archive.display()
        );
    }
    println!("cargo:rustc-link-search=native={}", folder.display());
    println!("cargo:rustc-link-lib=static=savorylatch");
}
