//! Leaves a file for a test to find.

fn main() {
    let out = std::env::var("OUT_DIR").unwrap();
    std::fs::write(std::path::Path::new(&out).join("made"), "by the build script").unwrap();
    println!("cargo:rustc-env=MIXED_BUILT=yes");
}
