//! Sets `--cfg test` for this package alone. In the Rust it guards nothing but its `mod tests;` lines:
//! a child module may read private fields, and through it one child's buffer can be wiped.
fn main() {
    println!("cargo:rerun-if-changed=build.rs");
    println!("cargo:rustc-cfg=test");
}
