//! Says where the library is that `calls` links.

fn main() {
    println!("cargo:rerun-if-env-changed=ACPISET_LIB_DIR");
    if let Ok(folder) = std::env::var("ACPISET_LIB_DIR") {
        println!("cargo:rustc-link-search=native={folder}");
        println!("cargo:rerun-if-changed={folder}/libacpiset.a");
    }
}
