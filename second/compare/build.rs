//! Links the proved library. Its folder is the environment's VAZNIROKH_LIB (seen from
//! this package), or else where `second/archive` puts it.

fn main() {
    let folder = std::env::var("VAZNIROKH_LIB").unwrap_or("../../target/staticlib".into());
    println!("cargo:rerun-if-env-changed=VAZNIROKH_LIB");
    println!("cargo:rerun-if-changed={folder}/libvaznirokh.a");
    println!("cargo:rustc-link-search=native={folder}");
    println!("cargo:rustc-link-lib=static=vaznirokh");
}
