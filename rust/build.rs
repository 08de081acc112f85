//! Links the proved archive: from the folder that DIKOTHELM_LIB names, else from target/staticlib of the repository. Where it isn't there the build goes on
//! with a warning, since only linking needs it.

use std::env;
use std::path::PathBuf;

fn main() {
    println!("cargo:rerun-if-env-changed=DIKOTHELM_LIB");
    let here = PathBuf::from(env::var_os("CARGO_MANIFEST_DIR").unwrap_or_default());
    let named = env::var_os("DIKOTHELM_LIB").filter(|folder| !folder.is_empty());
    let folder = here.join(named.unwrap_or_else(|| "../target/staticlib".into()));
    let archive = folder.join("libdikothelm.a");
    println!("cargo:rerun-if-changed={}", archive.display());
    if !archive.is_file() {
        println!("cargo:warning={} is not there, so nothing can be linked.", archive.display());
        println!("cargo:warning=Prove and build it with `.ci/build archive` at the top of the repository,");
        println!("cargo:warning=or name the folder that has libdikothelm.a in the environment variable DIKOTHELM_LIB.");
    }
    println!("cargo:rustc-link-search=native={}", folder.display());
    println!("cargo:rustc-link-lib=static=dikothelm");
}
