//! Links `libpierstride.a` from the directory that `PIERSTRIDE_LIB` names, or else from where `make desk` puts it.

fn main() {
    println!("cargo:rerun-if-env-changed=PIERSTRIDE_LIB");
    let directory = std::env::var("PIERSTRIDE_LIB").unwrap_or_else(|_| {
        concat!(env!("CARGO_MANIFEST_DIR"), "/../target/staticlib").to_string()
    });
    println!("cargo:rerun-if-changed={directory}/libpierstride.a");
    println!("cargo:rustc-link-search=native={directory}");
    println!("cargo:rustc-link-lib=static=pierstride");
}
