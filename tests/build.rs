// Links the library under test. Without it the test programs are built with
// their own stand-ins only and refuse to compare the library, so that a missing
// library never passes for an agreeing one.

#[path = "../wrapper/archive.rs"]
mod archive;

fn main() {
    println!("cargo:rustc-check-cfg=cfg(linked)");
    if let Some(archive) = archive::archive() {
        println!("cargo:rustc-cfg=linked");
        println!("cargo:rustc-link-arg={}", archive.display());
    }
}
