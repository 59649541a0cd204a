//! Lays out the original reader for this crate from the folder that
//! `ROUP_SRC` names. The files are used in place and unchanged; only of
//! type_name.rs a second copy is made, which counts its steps and opens its
//! checks and its reading.

use std::path::{Path, PathBuf};
use std::{env, fs};

const SOURCE: &str = "src/source.rs";
const VERSION: &str = "src/version.rs";
const AST: &str = "src/host/ast.rs";
const LEXER: &str = "src/host/lexer.rs";
const TYPE_NAME: &str = "src/host/type_name.rs";

/// Document 01 counts one step at each entry to one of these.
const COUNTED: [&str; 5] = [
    "parse_node",
    "validate_c_family_type",
    "validate_fortran_type",
    "validate_abstract_declarator",
    "validate_expression",
];

/// Stands behind the counted copy. Document 02's request C-17 reads trees of its
/// own and has them checked as before; what a row is without lists is read as in
/// C, where none is tried.
const OPENED: &str = "
pub fn check(
    syntax: &[TypeSyntax],
    tokens: &[TokenKind],
    profile: HostLanguageProfile,
    validate_structure: bool,
) -> Result<(), TypeNameError> {
    if validate_structure {
        validate_structured_syntax(syntax, profile.language())?;
    }
    validate_profile_features(tokens, profile)
}

pub fn read_without_lists(tokens: &[TokenKind]) -> Result<Vec<TypeSyntax>, TypeNameError> {
    TypeSyntaxParser::new(tokens).parse(HostLanguage::C)
}
";

fn main() {
    println!("cargo::rerun-if-env-changed=ROUP_SRC");
    println!("cargo::rerun-if-changed=build.rs");
    if let Err(message) = lay_out() {
        println!("cargo::error={message}");
    }
}

fn lay_out() -> Result<(), String> {
    let root = root()?;
    let out = PathBuf::from(env::var_os("OUT_DIR").ok_or("OUT_DIR is not set")?);
    let counted = out.join("counted.rs");
    let type_name = file(&root, TYPE_NAME)?;
    let text = fs::read_to_string(&type_name).map_err(|error| format!("{TYPE_NAME}: {error}"))?;
    write(&counted, &(with_counter(&text)? + OPENED))?;
    let modules = format!(
        "{}{}pub mod host {{\n{}{}{}{}{REEXPORTS}}}\n",
        module("source", &file(&root, SOURCE)?),
        module("version", &file(&root, VERSION)?),
        module("ast", &file(&root, AST)?),
        module("lexer", &file(&root, LEXER)?),
        module("type_name", &type_name),
        module("counted", &counted),
    );
    write(&out.join("original.rs"), &modules)
}

/// What the files take from their parent module. `Lexer` is the stub, so that
/// rows can be handed in without a text that the lexer would read so.
const REEXPORTS: &str = "\
    pub use ast::*;
    pub use lexer::{LexError, TokenKind};
    pub use crate::stub::Lexer;
";

/// A relative path counts from this package's folder, where Cargo runs us.
fn root() -> Result<PathBuf, String> {
    let named = env::var_os("ROUP_SRC")
        .ok_or("ROUP_SRC is not set: it must name the folder that holds src/host/type_name.rs")?;
    fs::canonicalize(&named).map_err(|error| {
        let named = Path::new(&named).display();
        format!("ROUP_SRC={named} (absolute, or relative to the harness folder): {error}")
    })
}

fn file(root: &Path, name: &str) -> Result<PathBuf, String> {
    let path = root.join(name);
    println!("cargo::rerun-if-changed={}", path.display());
    if path.is_file() {
        Ok(path)
    } else {
        Err(format!("ROUP_SRC={} has no {name}", root.display()))
    }
}

/// The warnings of the original are not ours to mend.
fn module(name: &str, path: &Path) -> String {
    format!("#[allow(warnings, clippy::all)]\n#[path = {path:?}]\npub mod {name};\n")
}

/// Adds one line, a call of the step counter, at each counted entry.
fn with_counter(text: &str) -> Result<String, String> {
    let mut text = text.to_owned();
    for name in COUNTED {
        let head = format!("fn {name}(");
        let found: Vec<usize> = text.match_indices(&head).map(|(at, _)| at).collect();
        let [at] = found[..] else {
            return Err(format!(
                "{TYPE_NAME}: `{head}` occurs {} times, not once",
                found.len()
            ));
        };
        let Some(brace) = text[at..].find("{\n") else {
            return Err(format!("{TYPE_NAME}: {name} has no body"));
        };
        text.insert_str(at + brace + 2, "    crate::steps::enter();\n");
    }
    Ok(text)
}

fn write(path: &Path, text: &str) -> Result<(), String> {
    fs::write(path, text).map_err(|error| format!("{}: {error}", path.display()))
}
