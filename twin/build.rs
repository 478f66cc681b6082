//! Gives the three programs the proved library to link, and `count` the name of
//! the compiler. The twin itself and its unit tests do not need the library, so
//! nothing is said about them.

use std::env;
use std::path::Path;
use std::process::Command;

/// What the compiler calls itself: the plain side's instructions are its work.
fn compiler() -> String {
    let rustc = env::var_os("RUSTC").expect("cargo sets it");
    let said = Command::new(rustc).arg("--version").output();
    let said = said.expect("the compiler tells its version").stdout;
    String::from_utf8_lossy(&said).trim().to_string()
}

fn main() {
    println!("cargo:rerun-if-env-changed=FEATHERLOOM_LIB");
    let folder = match env::var("FEATHERLOOM_LIB") {
        Ok(folder) => Path::new(&folder).to_path_buf(),
        Err(_) => {
            let package = env::var("CARGO_MANIFEST_DIR").expect("cargo sets it");
            Path::new(&package).join("../crates/featherloom/out")
        }
    };
    let library = folder.join("libfeatherloom.a");
    println!("cargo:rerun-if-changed={}", library.display());
    println!("cargo:rustc-link-arg-bins={}", library.display());
    println!("cargo:rustc-env=TWIN_RUSTC={}", compiler());
}
