//! In the program `copies` alone, every call of memcpy and memmove, from whatever library, goes to that
//! program's counters.

fn main() {
    println!("cargo:rerun-if-changed=build.rs");
    for name in ["memcpy", "memmove"] {
        println!("cargo:rustc-link-arg-bin=copies=-Wl,--wrap={name}");
    }
}
