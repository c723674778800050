//! Links the comparison with libticklocust.a, from the folder that TICKLOCUST_LIB names.
//! The model alone (`cargo test`, model/ask) needs no archive, and never links it.

fn main() {
    println!("cargo:rerun-if-env-changed=TICKLOCUST_LIB");
    if let Ok(folder) = std::env::var("TICKLOCUST_LIB") {
        let archive = format!("{folder}/libticklocust.a");
        println!("cargo:rerun-if-changed={archive}");
        println!("cargo:rustc-link-arg-bin=compare={archive}");
    }
}
