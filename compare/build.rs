//! Tells the linker where liblomvadric.a is: in LOMVADRIC_ARCHIVES (seen from this folder), or where `tools/build` writes it. The archive is for
//! x86-64, so on another machine nothing is linked: see `archive_apart`.

use std::env;
use std::path::Path;

fn main() {
    if env::var("CARGO_CFG_TARGET_ARCH").as_deref() != Ok("x86_64") {
        return;
    }
    let named =
        env::var("LOMVADRIC_ARCHIVES").unwrap_or_else(|_| "../target/staticlib".to_string());
    let folder = Path::new(env!("CARGO_MANIFEST_DIR")).join(named);
    println!("cargo:rerun-if-env-changed=LOMVADRIC_ARCHIVES");
    // A new archive must be linked again, though no source has changed.
    println!(
        "cargo:rerun-if-changed={}",
        folder.join("liblomvadric.a").display()
    );
    println!("cargo:rustc-link-search=native={}", folder.display());
    println!("cargo:rustc-link-lib=static=lomvadric");
}
