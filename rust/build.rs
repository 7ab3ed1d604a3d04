//! Links libspritbobbin.a, from the folder in SPRITBOBBIN_LIB or from target/native, where the
//! repository's own tools write it.

use std::env;
use std::path::PathBuf;

fn main() {
    // Joined to the package's own folder, so that the default does not depend on where cargo was
    // started; an absolute folder in the variable stays as it is.
    let package = PathBuf::from(env::var_os("CARGO_MANIFEST_DIR").unwrap_or_default());
    let folder = env::var_os("SPRITBOBBIN_LIB").unwrap_or_else(|| "../target/native".into());
    let folder = package.join(folder);
    let archive = folder.join("libspritbobbin.a");
    println!("cargo:rerun-if-env-changed=SPRITBOBBIN_LIB");
    println!("cargo:rerun-if-changed=build.rs");
    println!("cargo:rerun-if-changed={}", archive.display());
    if !archive.exists() {
        // Only a warning: reading the documentation and checking types need no archive.
        println!("cargo:warning=no {}", archive.display());
        println!("cargo:warning=build it by tools/native-archive, or set SPRITBOBBIN_LIB");
    }
    println!("cargo:rustc-link-search=native={}", folder.display());
    println!("cargo:rustc-link-lib=static=spritbobbin");
}
