//! Links the C library from the folder that the environment names as NDC_LIBRARY.

fn main() {
    println!("cargo:rerun-if-env-changed=NDC_LIBRARY");
    let folder = std::env::var("NDC_LIBRARY")
        .expect("NDC_LIBRARY names the folder of `./ndc library --to FOLDER`");
    println!("cargo:rustc-link-search=native={folder}");
    println!("cargo:rustc-link-lib=static=ndc_c");
    println!("cargo:rustc-link-lib=static=libc_c");
}
