//! Links the library by its own file name, whatever that is.

mod archive;

fn main() {
    let archive = archive::archive()
        .expect("the library is not there: run `bash tools/build library` in the repository's folder");
    let (folder, name) = (archive.parent(), archive.file_name());
    let (folder, name) = folder.zip(name).expect("a file has a folder and a name");
    println!("cargo:rustc-link-search=native={}", folder.display());
    println!("cargo:rustc-link-lib=static:+verbatim={}", name.to_string_lossy());
}
