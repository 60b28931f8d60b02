//! Links the library, and makes a wrong copy of the model for each slip in `slips/`: one line of it is replaced.

use std::fs;
use std::path::{Path, PathBuf};

/// A slip: what it is in words, the file, the line and what stands in its place.
struct Slip {
    name: String,
    words: String,
    file: String,
    old: String,
    new: String,
}

fn read_slip(path: &Path) -> Slip {
    let text = fs::read_to_string(path).expect("a slip");
    let part = |mark: &str| {
        let line = text.lines().find_map(|line| line.strip_prefix(mark));
        line.unwrap_or_else(|| panic!("{}: no {mark:?}", path.display())).to_string()
    };
    Slip {
        name: path.file_stem().and_then(|name| name.to_str()).expect("a name").to_string(),
        words: part("# "),
        file: part("file: "),
        old: part("old: "),
        new: part("new: "),
    }
}

fn slips(root: &Path) -> Vec<Slip> {
    let mut paths: Vec<PathBuf> = fs::read_dir(root.join("slips"))
        .expect("slips/")
        .map(|entry| entry.expect("a slip").path())
        .filter(|path| path.extension().is_some_and(|extension| extension == "edit"))
        .collect();
    paths.sort();
    paths.iter().map(|path| read_slip(path)).collect()
}

/// The file with the slip made, which must be possible in one place alone.
fn slipped(root: &Path, file: &str, slip: &Slip) -> String {
    let text = fs::read_to_string(root.join("src").join(file)).expect("a source file");
    if file != slip.file {
        return text;
    }
    let places = text.lines().filter(|line| *line == slip.old).count();
    assert!(places == 1, "{}: its old line stands in {places} places of {file}", slip.name);
    text.lines()
        .map(|line| if line == slip.old { slip.new.as_str() } else { line })
        .fold(String::new(), |all, line| all + line + "\n")
}

fn main() {
    let root = PathBuf::from(std::env::var("CARGO_MANIFEST_DIR").expect("a folder"));
    let out = PathBuf::from(std::env::var("OUT_DIR").expect("a folder"));
    let mut modules = String::new();
    let mut list = String::new();
    for slip in slips(&root) {
        let folder = out.join(&slip.name);
        fs::create_dir_all(&folder).expect("a folder");
        let mut module = format!("#[allow(dead_code)]\nmod {} {{\n", slip.name);
        for file in ["model.rs", "bytes.rs"] {
            let path = folder.join(file);
            fs::write(&path, slipped(&root, file, &slip)).expect("a copy");
            module += &format!("#[path = {:?}]\npub mod {};\n", path, &file[..file.len() - 3]);
        }
        modules += &format!("{module}}}\n");
        list += &format!(
            "Slip {{ name: {0:?}, words: {1:?}, side: &{2}::bytes::Model }},\n",
            slip.name, slip.words, slip.name
        );
    }
    let count = list.lines().count();
    let table = format!("pub static SLIPS: [Slip; {count}] = [\n{list}];\n");
    fs::write(out.join("slips.rs"), modules + &table).expect("slips.rs");
    println!("cargo:rerun-if-changed=slips");
    println!("cargo:rerun-if-changed=src/model.rs");
    println!("cargo:rerun-if-changed=src/bytes.rs");
    if std::env::var_os("CARGO_FEATURE_LINKED").is_some() {
        let folder = root.join("../target/staticlib");
        println!("cargo:rustc-link-search=native={}", folder.display());
        println!("cargo:rustc-link-lib=static=weftpillar");
        println!("cargo:rerun-if-changed={}", folder.join("libweftpillar.a").display());
    }
}
