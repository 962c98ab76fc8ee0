//! ARGUS_LIBRARIES is a list of folders with libargus_c.a and the toolchain's liblibc_c.a, with a colon between two.
fn main() {
    println!("cargo:rerun-if-env-changed=ARGUS_LIBRARIES");
    for folder in std::env::var("ARGUS_LIBRARIES").unwrap_or_default().split(':') {
        println!("cargo:rustc-link-search=native={folder}");
    }
}
