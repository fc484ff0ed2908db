//! Links `libgustlantern.a` from the folder that the variable GUSTLANTERN_LIBRARY names.

use std::path::Path;

const VARIABLE: &str = "GUSTLANTERN_LIBRARY";
const ARCHIVE: &str = "libgustlantern.a";

fn main() {
    println!("cargo:rerun-if-env-changed={VARIABLE}");
    let Some(folder) = std::env::var_os(VARIABLE) else {
        stop(&format!(
            "{VARIABLE} is not set: it names the folder with {ARCHIVE}"
        ));
    };
    let archive = Path::new(&folder).join(ARCHIVE);
    if !archive.is_file() {
        stop(&format!(
            "there is no {}: {VARIABLE} names its folder",
            archive.display()
        ));
    }
    println!("cargo:rerun-if-changed={}", archive.display());
    println!(
        "cargo:rustc-link-search=native={}",
        Path::new(&folder).display()
    );
    println!("cargo:rustc-link-lib=static=gustlantern");
}

fn stop(why: &str) -> ! {
    eprintln!("{why}");
    std::process::exit(1);
}
