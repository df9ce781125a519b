//! Tells the linker where libdesk.a lies, and has this package built again when it changes.

fn main() {
    println!("cargo:rerun-if-env-changed=WHEELOTTER_LIBRARY");
    if let Ok(directory) = std::env::var("WHEELOTTER_LIBRARY") {
        println!("cargo:rustc-link-search=native={directory}");
        println!("cargo:rerun-if-changed={directory}/libdesk.a");
    }
}
