//! Links the two static libraries, whose folder BENCH_LIBRARIES names.
fn main() {
    println!("cargo:rerun-if-env-changed=BENCH_LIBRARIES");
    let folder = std::env::var("BENCH_LIBRARIES").expect("BENCH_LIBRARIES");
    println!("cargo:rustc-link-search=native={folder}");
    for library in ["transforms_c", "inner"] {
        println!("cargo:rustc-link-lib=static={library}");
        println!("cargo:rerun-if-changed={folder}/lib{library}.a");
    }
}
