// Where the archives are: the library's, and that of the crate that counts its leaves.
fn main() {
    let target = concat!(env!("CARGO_MANIFEST_DIR"), "/../target");
    for (folder, name) in [
        ("staticlib", "uskelzar"),
        ("staticlib", "uskelzar-office"),
        ("bench/counted/target/staticlib", "counted"),
    ] {
        println!("cargo:rustc-link-search=native={target}/{folder}");
        println!("cargo:rerun-if-changed={target}/{folder}/lib{name}.a");
    }
}
