//! Tells the linker where libwire.a lies, for `compare_c` alone.

fn main() {
    println!("cargo:rerun-if-changed=build.rs");
    println!("cargo:rerun-if-env-changed=LIBWIRE_DIR");
    if let Ok(dir) = std::env::var("LIBWIRE_DIR") {
        println!("cargo:rustc-link-search=native={dir}");
    }
}
