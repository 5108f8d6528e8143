//! The name by which a program finds the shared library when it starts: a later library that keeps
//! this name keeps its call.
fn main() {
    if std::env::var("CARGO_CFG_TARGET_OS").as_deref() == Ok("linux") {
        println!("cargo:rustc-cdylib-link-arg=-Wl,-soname,liblay.so.0");
    }
    println!("cargo:rerun-if-changed=build.rs");
}
