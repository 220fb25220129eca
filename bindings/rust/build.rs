//! Links libjvhost.a of the folder JVHOST_LIBRARY_DIR, or of where the system's linker looks.

fn main() {
    println!("cargo:rerun-if-env-changed=JVHOST_LIBRARY_DIR");
    if let Ok(folder) = std::env::var("JVHOST_LIBRARY_DIR") {
        println!("cargo:rerun-if-changed={folder}/libjvhost.a");
        println!("cargo:rustc-link-search=native={folder}");
    }
    println!("cargo:rustc-link-lib=static=jvhost");
}
