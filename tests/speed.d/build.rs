//! Links the proved calls and Boost's CRC, which `tests/speed` writes to the project's target/speed beforehand.

fn main() {
    let root = std::env::var("CARGO_MANIFEST_DIR").expect("cargo names the package's folder");
    println!("cargo:rustc-link-search=native={root}/../../target/speed");
    for name in ["speed", "boost_crc"] {
        println!("cargo:rustc-link-lib=static={name}");
        println!("cargo:rerun-if-changed={root}/../../target/speed/lib{name}.a");
    }
    println!("cargo:rustc-link-lib=stdc++");
}
