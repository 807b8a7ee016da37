//! With the feature `rattle`, links libtaplinen.a from the directory that
//! TAPLINEN_LIB names.

fn main() {
    println!("cargo:rerun-if-env-changed=TAPLINEN_LIB");
    if std::env::var_os("CARGO_FEATURE_RATTLE").is_none() {
        return;
    }
    let Ok(directory) = std::env::var("TAPLINEN_LIB") else {
        panic!("the feature `rattle` needs TAPLINEN_LIB, the directory of libtaplinen.a");
    };
    println!("cargo:rerun-if-changed={directory}/libtaplinen.a");
    println!("cargo:rustc-link-search=native={directory}");
    // Left to the last link: its objects take no part in Rust's own
    // link-time optimisation.
    println!("cargo:rustc-link-lib=static:-bundle=taplinen");
}
