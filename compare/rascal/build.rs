//! Lays out a source tree in OUT_DIR: links to Rascal's own files, unchanged, and the shims of `shims/` for the modules
//! that are missing there. RASCAL_SRC names the folder that holds `crates/rascal/src/internal`.

use std::path::{Path, PathBuf};
use std::{env, fs};

/// Rascal's files that declare modules, or that nothing has to be put in front of.
const LINKED: &[&str] = &[
    "as2_pcode.rs",
    "as2/ast.rs",
    "as2/hir.rs",
    "as2/hir/scope.rs",
    "as2_codegen.rs",
    "as2_codegen/access.rs",
    "as2_codegen/builder.rs",
    "as2_codegen/constants.rs",
    "as2_codegen/special_properties.rs",
    "as2_codegen/statement.rs",
];

/// Rascal's files in which a name of std has a stand-in of ours: the file, and the line in front of it.
const WITH_STAND_INS: &[(&str, &str)] = &[
    // The lists count their actions and push values.
    ("as2_pcode/pcode.rs", "use counted::Vec;"),
    // `create_label` is the only place with `format!`.
    ("as2_codegen/context.rs", "macro_rules! format { ($($t:tt)*) => {{ counted::label(); std::format!($($t)*) }} }"),
];

/// Ours, for modules that are missing.
const SHIMS: &[&str] = &[
    "root.rs",
    "internal.rs",
    "internal/span.rs",
    "internal/as2.rs",
    "internal/as2/lexer.rs",
    "internal/as2/hir/constant_folder.rs",
    "internal/as2/hir/optimize_virtual_properties.rs",
    "internal/as2/hir/register_promoter.rs",
    "internal/as2/hir/visitor.rs",
    "internal/as2_pcode/lexer.rs",
    "internal/as2_pcode/parser.rs",
];

fn main() {
    println!("cargo:rerun-if-env-changed=RASCAL_SRC");
    println!("cargo:rerun-if-changed=shims");
    println!("cargo:rerun-if-changed=build.rs");
    let source =
        env::var("RASCAL_SRC").expect("RASCAL_SRC must name the folder of Rascal's sources (it holds crates/rascal/src)");
    let source = Path::new(&source).join("crates/rascal/src/internal");
    let source = source.canonicalize().unwrap_or_else(|e| panic!("{}: {e}", source.display()));
    let out = PathBuf::from(env::var("OUT_DIR").unwrap());
    let shims = PathBuf::from(env::var("CARGO_MANIFEST_DIR").unwrap()).join("shims");
    let tree = out.join("tree");
    let _ = fs::remove_dir_all(&tree);
    for name in LINKED {
        let from = source.join(name);
        println!("cargo:rerun-if-changed={}", from.display());
        link(&from, &tree.join("internal").join(name));
    }
    for (name, line) in WITH_STAND_INS {
        let from = source.join(name);
        println!("cargo:rerun-if-changed={}", from.display());
        put(&tree.join("internal").join(name), &format!("{line}\ninclude!({:?});\n", from.display().to_string()));
    }
    for name in SHIMS {
        link(&shims.join(name), &tree.join(name));
    }
}

fn link(from: &Path, to: &Path) {
    fs::create_dir_all(to.parent().unwrap()).unwrap();
    std::os::unix::fs::symlink(from, to).unwrap_or_else(|e| panic!("{}: {e}", to.display()));
}

fn put(to: &Path, text: &str) {
    fs::create_dir_all(to.parent().unwrap()).unwrap();
    fs::write(to, text).unwrap();
}
