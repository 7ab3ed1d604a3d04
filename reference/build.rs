//! Hands the product's archive to the differential test, and to nothing else: the
//! reference itself must not be able to call the product.

use std::env;
use std::path::PathBuf;

fn main() {
    println!("cargo:rerun-if-env-changed=SPRITBOBBIN_LIB");
    println!("cargo:rerun-if-changed=build.rs");
    if env::var_os("CARGO_FEATURE_FACE").is_none() {
        return;
    }
    // Joined to the package's own folder, so that the default does not depend on where
    // cargo was started; an absolute folder in the variable stays as it is.
    let package = PathBuf::from(env::var_os("CARGO_MANIFEST_DIR").unwrap_or_default());
    let folder = env::var_os("SPRITBOBBIN_LIB").unwrap_or_else(|| "../target/native".into());
    let archive = package.join(folder).join("libspritbobbin.a");
    println!("cargo:rerun-if-changed={}", archive.display());
    if !archive.exists() {
        println!("cargo:warning=no {}: set SPRITBOBBIN_LIB to its folder", archive.display());
    }
    println!("cargo:rustc-link-arg-bin=differential={}", archive.display());
    // An archive made without the standard library brings a panic handler of its own, and
    // this program has one already: the first is taken, which is this program's.
    if env::var("CARGO_CFG_TARGET_OS").as_deref() == Ok("linux") {
        println!("cargo:rustc-link-arg-bin=differential=-Wl,--allow-multiple-definition");
    }
}
