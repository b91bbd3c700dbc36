//! Links the proved kernel where the feature asks for it.

fn main() {
    println!("cargo:rerun-if-env-changed=EXOS_LIB_DIR");
    println!("cargo:rerun-if-env-changed=EXOS_LIB");
    if std::env::var_os("CARGO_FEATURE_PROVED").is_none() {
        return;
    }
    let dir = std::env::var("EXOS_LIB_DIR").expect("EXOS_LIB_DIR names the library's folder");
    let name = std::env::var("EXOS_LIB").expect("EXOS_LIB names the library");
    println!("cargo:rerun-if-changed={dir}/lib{name}.a");
    println!("cargo:rustc-link-search=native={dir}");
    println!("cargo:rustc-link-lib=static={name}");
}
