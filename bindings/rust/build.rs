//! Links the proved static library that stands in the repository, and tells the crate under which toolchain it was proved.
use std::path::Path;

fn main() {
    let root = Path::new(env!("CARGO_MANIFEST_DIR")).join("../..");
    let folder = root.join("target/staticlib");
    let archive = folder.join("liblibrary.a");
    println!("cargo:rerun-if-changed={}", archive.display());
    if !archive.is_file() {
        panic!("{} is missing: run `./build.sh library` in the root of the repository, which proves and writes it", archive.display());
    }
    println!("cargo:rustc-link-search=native={}", folder.display());
    println!("cargo:rustc-link-lib=static=library");
    println!("cargo:rustc-env=FEJOGBU_TOOLCHAIN={}", toolchain(&root));
}

/// The version under which the proofs were last checked: test.sh holds it to the toolchain's own, and a card names it.
fn toolchain(root: &Path) -> String {
    let script = root.join("test.sh");
    println!("cargo:rerun-if-changed={}", script.display());
    let text = std::fs::read_to_string(&script).unwrap_or_default();
    let line = text.lines().find_map(|line| line.strip_prefix("checked='"));
    match line.and_then(|rest| rest.strip_suffix('\'')) {
        Some(version) => version.to_string(),
        None => panic!("{} has no line checked='..'", script.display()),
    }
}
