//! For cargo: the library goes into the wrappers' own, as in rust/build.

mod archive;

fn main() {
    let library = archive::of("capi", "NPP_LIBRARY");
    let folder = library.parent().expect("a file is in a folder");
    let name = library.file_name().expect("a file has a name");
    println!("cargo::rustc-link-search=native={}", folder.display());
    println!("cargo::rustc-link-lib=static:+verbatim={}", name.display());
}
