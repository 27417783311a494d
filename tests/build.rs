//! Links the static library `lookups`, with the look-ups alone, for the tests and
//! for `bench/`. It lies in the folder where the crate `oboepond`, which links
//! `cabi`, found that; without that crate nothing is linked.

use std::path::PathBuf;

fn main() {
    let Some(folder) = std::env::var_os("DEP_CABI_FOLDER").map(PathBuf::from) else { return };
    let library = folder.join("liblookups.a");
    println!("cargo:rerun-if-changed={}", library.display());
    if !library.exists() {
        panic!("no {}: build it with `tools/build.sh lookups`", library.display());
    }
    println!("cargo:rustc-link-search=native={}", folder.display());
    println!("cargo:rustc-link-lib=static=lookups");
}
