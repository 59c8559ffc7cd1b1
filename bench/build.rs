//! For cargo: the public calls' library, and that of the inner ones.

#[path = "../rust/archive.rs"]
mod archive;

fn main() {
    let calls = archive::of("capi", "NPP_LIBRARY");
    let inner = archive::of("bench", "NPP_BENCH_LIBRARY");
    println!("cargo::rustc-link-arg-bin=calls={}", calls.display());
    for program in ["inner", "charges"] {
        println!("cargo::rustc-link-arg-bin={program}={}", inner.display());
    }
}
