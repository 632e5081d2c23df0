//! Finds the original's sources and writes the lines that make modules of them: unchanged at 128 pixels a depth bucket, and for each other
//! width copies of the coarse stage in which that one constant is another.
//! They lie in the folder that `VELLO_CPU_SRC` names: the `src` of vello_cpu 0.3.0. Without it, beside the checkout.
use std::path::{Path, PathBuf};
use std::{env, fs};

const BESIDE: &str = "../../shared/docs/src/src";

/// For each module that holds files of the original: its name, and theirs.
const MODULES: [(&str, &[&str]); 3] = [
    ("coarse", &["coarse/bucketer", "coarse/cmd", "coarse/depth"]),
    ("filter", &["filter/context"]),
    ("root", &["record", "span"]),
];

/// The widths of the copies.
const WIDTHS: [u16; 2] = [64, 256];

/// The line that says how wide a bucket is, the file that has it, and its constants' names, which no other file may know.
const LINE: &str = "pub(crate) const DEPTH_BUCKET_WIDTH: u16 = 128;";
const HAS_LINE: &str = "coarse/depth";
const CONSTANTS: &str = "DEPTH_BUCKET";

/// How the files of the coarse stage name their module. The others don't name it, so that one of each serves every width.
const STAGE: &str = "crate::coarse::";

fn main() {
    println!("cargo:rerun-if-env-changed=VELLO_CPU_SRC");
    let here = PathBuf::from(env::var("CARGO_MANIFEST_DIR").expect("cargo sets it"));
    let out = PathBuf::from(env::var("OUT_DIR").expect("cargo sets it"));
    let sources = env::var("VELLO_CPU_SRC").map_or_else(|_| here.join(BESIDE), PathBuf::from);
    for (module, files) in MODULES {
        let found: Vec<PathBuf> = files.iter().map(|file| find(&sources, file)).collect();
        let text: String = found.iter().map(|at| item(at)).collect();
        fs::write(out.join(module).with_extension("rs"), text).expect("a file in OUT_DIR");
        for (file, at) in files.iter().zip(&found) {
            judge(file, &fs::read_to_string(at).expect("a source"));
        }
        if module == "coarse" {
            for width in WIDTHS {
                copies(&out, width, files, &found);
            }
        }
    }
}

/// Where a file of the original lies.
fn find(sources: &Path, file: &str) -> PathBuf {
    let at = sources.join(file).with_extension("rs");
    let at = at.canonicalize().unwrap_or_else(|error| {
        panic!(
            "{}: {error}; set VELLO_CPU_SRC to the folder src of vello_cpu 0.3.0",
            at.display()
        )
    });
    println!("cargo:rerun-if-changed={}", at.display());
    at
}

/// The line that makes a module of a file.
fn item(at: &Path) -> String {
    let name = at.file_stem().expect("a name").display();
    format!(
        "#[path = {:?}]\n#[allow(dead_code, clippy::all)]\npub(crate) mod {name};\n",
        at.display().to_string()
    )
}

/// One file alone has the line, once, and knows the constants; only files of the coarse stage name it.
fn judge(file: &str, text: &str) {
    let lines = text.lines().filter(|line| *line == LINE).count();
    assert_eq!(lines, usize::from(file == HAS_LINE), "{file}: '{LINE}'");
    assert!(
        file == HAS_LINE || !text.contains(CONSTANTS),
        "{file} knows a bucket's width"
    );
    let own = file.starts_with("coarse/");
    assert!(own || !text.contains(STAGE), "{file} names the stage");
}

/// The coarse stage at another width: its files with the constant and their own module's name replaced, and the lines that make modules of them.
fn copies(out: &Path, width: u16, files: &[&str], found: &[PathBuf]) {
    let module = format!("coarse_{width}");
    let folder = out.join(&module);
    fs::create_dir_all(&folder).expect("a folder in OUT_DIR");
    let mut items = String::new();
    for (file, at) in files.iter().zip(found) {
        let original = fs::read_to_string(at).expect("a source");
        let mut text = original.replace(STAGE, &format!("crate::{module}::"));
        if *file == HAS_LINE {
            text = text.replace(LINE, &LINE.replace("128", &width.to_string()));
        }
        let copy = folder.join(at.file_name().expect("a name"));
        fs::write(&copy, text).expect("a file in OUT_DIR");
        items += &item(&copy);
    }
    fs::write(out.join(&module).with_extension("rs"), items).expect("a file in OUT_DIR");
}
