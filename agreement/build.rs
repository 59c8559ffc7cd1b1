//! For cargo: the library, and all six stages.

#[path = "../rust/archive.rs"]
mod archive;

const STAGES: [&str; 6] = [
    "stage_plan",
    "stage_provision",
    "stage_number",
    "stage_listing",
    "stage_loss",
    "stage_compare",
];

fn main() {
    let library = archive::of("capi", "NPP_LIBRARY");
    println!("cargo::rustc-link-arg-bins={}", library.display());
    println!("cargo::rustc-check-cfg=cfg({})", STAGES.join(", "));
    for stage in STAGES {
        println!("cargo::rustc-cfg={stage}");
    }
}
