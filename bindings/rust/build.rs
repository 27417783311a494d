//! Links the static library libcabi.a. Its folder is that of OBOEPOND_LIB, a
//! relative one taken from this crate, else ../../target/staticlib. A crate that
//! depends on this one finds the folder in DEP_CABI_FOLDER in its build script.

use std::path::PathBuf;

fn main() {
    println!("cargo:rerun-if-env-changed=OBOEPOND_LIB");
    let target = ["OS", "ARCH"].map(|part| std::env::var(format!("CARGO_CFG_TARGET_{part}")).unwrap_or_default());
    if target != ["linux", "x86_64"] {
        panic!("oboepond is for Linux on x86-64 only, not for {} on {}", target[0], target[1]);
    }
    let here = PathBuf::from(std::env::var_os("CARGO_MANIFEST_DIR").expect("cargo sets it"));
    let folder = here.join(std::env::var_os("OBOEPOND_LIB").unwrap_or("../../target/staticlib".into()));
    let library = folder.join("libcabi.a");
    println!("cargo:rerun-if-changed={}", library.display());
    if !library.exists() {
        panic!(
            "no {}: build it with `tools/build.sh cabi`, or set OBOEPOND_LIB to the folder that has it",
            library.display()
        );
    }
    println!("cargo:rustc-link-search=native={}", folder.display());
    println!("cargo:rustc-link-lib=static=cabi");
    println!("cargo:folder={}", folder.display());
}
