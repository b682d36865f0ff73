//! Links what `bench/run` has made for this machine: the library, and the plain C.

fn main() {
    let made = concat!(env!("CARGO_MANIFEST_DIR"), "/../target/native");
    println!("cargo::rustc-link-search=native={made}");
    println!("cargo::rustc-link-lib=static=hosts");
    println!("cargo::rustc-link-lib=static=plain");
    println!("cargo::rerun-if-changed={made}/libhosts.a");
    println!("cargo::rerun-if-changed={made}/libplain.a");
}
