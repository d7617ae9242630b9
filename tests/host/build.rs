//! Links the archives, libtoqhaymi.a and liboutside.a, from the folder TOQHAYMI_LIB.

fn main() {
    println!("cargo:rerun-if-env-changed=TOQHAYMI_LIB");
    let folder = std::env::var("TOQHAYMI_LIB")
        .expect("TOQHAYMI_LIB is not set: run tests/run or tests/bench");
    println!("cargo:rustc-link-search=native={folder}");
    for name in ["toqhaymi", "outside"] {
        println!("cargo:rerun-if-changed={folder}/lib{name}.a");
        println!("cargo:rustc-link-lib=static={name}");
    }
}
