//! Links the library: statically from the folder in HOLLYWHIST_LIB, which holds libhollywhist.a, or else the shared one
//! that the system has.

fn main() {
    println!("cargo:rerun-if-env-changed=HOLLYWHIST_LIB");
    match std::env::var("HOLLYWHIST_LIB") {
        Ok(folder) => {
            println!("cargo:rerun-if-changed={folder}/libhollywhist.a");
            println!("cargo:rustc-link-search=native={folder}");
            println!("cargo:rustc-link-lib=static=hollywhist");
        }
        Err(_) => println!("cargo:rustc-link-lib=dylib=hollywhist"),
    }
}
