//! Holds the Rust declarations of the library to its C header.
//!
//! The types are held by a C compiler: a C file that is made from the Rust
//! declarations includes the header and takes the address of every entry as what
//! Rust declares it to be; it says where the fields of the answers lie, and of
//! what type they are. Two parameters of one type that are exchanged are still
//! the same type, so their names are held to the header's one by one as well, and
//! neither side may have an entry that the other lacks.

use std::collections::BTreeMap;
use std::path::Path;
use std::process::Command;

/// A name and its type.
type Typed = (String, String);

/// A declared function, or a struct without an answer.
struct Declared {
    name: String,
    parts: Vec<Typed>,
    answer: String,
}

/// The text between two others, and what follows it.
fn between<'a>(text: &'a str, open: &str, close: &str) -> Option<(&'a str, &'a str)> {
    text.split_once(open)?.1.split_once(close)
}

/// `name: type` with commas between and perhaps after them.
fn typed(text: &str) -> Vec<Typed> {
    let parts = text
        .split(',')
        .map(str::trim)
        .filter(|part| !part.is_empty());
    let parts = parts.map(|part| part.split_once(':').unwrap_or((part, "?")));
    let parts = parts.map(|(name, own)| (name.trim().to_string(), own.trim().to_string()));
    parts.collect()
}

/// The functions that Rust declares.
fn rust_functions(rust: &str) -> Vec<Declared> {
    let block = rust
        .split_once("extern \"C\" {")
        .map_or("", |(_, rest)| rest);
    let mut functions = Vec::new();
    for text in block.split("pub fn ").skip(1) {
        let (name, rest) = text.split_once('(').unwrap_or((text, ""));
        let (parameters, rest) = rest.split_once(')').unwrap_or((rest, ""));
        let (answer, _) = between(rest, "->", ";").unwrap_or(("?", ""));
        functions.push(Declared {
            name: name.trim().to_string(),
            parts: typed(parameters),
            answer: answer.trim().to_string(),
        });
    }
    functions
}

/// The structs that Rust lays out as C does.
fn rust_structs(rust: &str) -> Vec<Declared> {
    let mut structs = Vec::new();
    for text in rust.split("#[repr(C)]").skip(1) {
        let Some((name, rest)) = between(text, "pub struct ", "{") else {
            continue;
        };
        let fields = rest.split_once('}').map_or("", |(fields, _)| fields);
        structs.push(Declared {
            name: name.trim().to_string(),
            parts: typed(&fields.replace("pub ", "")),
            answer: String::new(),
        });
    }
    structs
}

/// The names of the parameters of every function that the header declares and
/// does not define.
fn header_functions(header: &str) -> BTreeMap<String, Vec<String>> {
    // Without comments and lines for the preprocessor.
    let mut plain = String::new();
    let mut rest = header;
    while let Some((before, comment)) = rest.split_once("/*") {
        plain.push_str(before);
        rest = comment.split_once("*/").map_or("", |(_, after)| after);
    }
    plain.push_str(rest);
    let lines = plain
        .lines()
        .filter(|line| !line.trim_start().starts_with('#'));
    let plain = lines.collect::<Vec<_>>().join(" ");
    let mut functions = BTreeMap::new();
    for (at, _) in plain.match_indices("mulgreddi_") {
        let word = |c: char| c.is_ascii_alphanumeric() || c == '_';
        let text = &plain[at..];
        let name = &text[..text.find(|c| !word(c)).unwrap_or(text.len())];
        let Some((parameters, after)) = text[name.len()..]
            .strip_prefix('(')
            .and_then(|rest| rest.split_once(')'))
        else {
            continue;
        };
        // A declaration has a type before it and nothing but a semicolon after.
        let before = plain[..at].trim_end();
        let is_type = before.ends_with(|c| word(c) || c == '*') && !before.ends_with("return");
        if is_type && after.trim_start().starts_with(';') {
            // A function without parameters has `void` there.
            let parameters = parameters.split(',').filter(|one| one.trim() != "void");
            let names = parameters.map(|parameter| {
                let name = parameter.trim().rsplit(|c| !word(c)).next();
                name.unwrap_or_default().to_string()
            });
            functions.insert(name.to_string(), names.collect());
        }
    }
    functions
}

/// The C type of a Rust type.
fn c_type(own: &str) -> Result<&'static str, String> {
    Ok(match own {
        "u32" => "uint32_t",
        "u64" => "uint64_t",
        "usize" => "size_t",
        "*const u8" => "const uint8_t *",
        "*mut u8" => "uint8_t *",
        "*mut u64" => "uint64_t *",
        "Answer" => "mulgreddi_answer",
        "Comparison" => "mulgreddi_comparison",
        other => return Err(format!("no C type is known for {other}")),
    })
}

/// A C file that compiles if the header's types are those that Rust declares.
fn c_file(functions: &[Declared], structs: &[Declared]) -> Result<String, String> {
    let mut c = String::from("#include \"mulgreddi.h\"\n");
    for function in functions {
        let types = function.parts.iter().map(|(_, own)| c_type(own));
        let mut types = types.collect::<Result<Vec<_>, _>>()?.join(", ");
        if types.is_empty() {
            types = "void".to_string();
        }
        let (name, answer) = (&function.name, c_type(&function.answer)?);
        c += &format!("{answer} (*const declared_{name})({types}) = {name};\n");
    }
    for one in structs {
        let own = c_type(&one.name)?;
        c += &format!(
            "_Static_assert(sizeof({own}) == {}, \"{own}\");\n",
            8 * one.parts.len()
        );
        for (place, (field, of)) in one.parts.iter().enumerate() {
            // Every field of an answer has 8 bytes.
            if of != "u64" {
                return Err(format!("field {field} of {} is no u64", one.name));
            }
            c += &format!(
                "_Static_assert(offsetof({own}, {field}) == {}, \"{field}\");\n",
                8 * place
            );
            c += &format!(
                "_Static_assert(_Generic((({own} *)0)->{field}, uint64_t: 1, default: 0), \"{field}\");\n"
            );
        }
    }
    Ok(c)
}

/// Holds the names, then the types; tells how many there were.
pub fn hold(rust: &str, header: &str, include: &str, file: &Path) -> Result<String, String> {
    let (functions, structs) = (rust_functions(rust), rust_structs(rust));
    let mut declared = header_functions(header);
    let mut parameters = 0;
    for function in &functions {
        let name = &function.name;
        let Some(names) = declared.remove(name) else {
            return Err(format!("the header does not declare {name}"));
        };
        let own: Vec<&String> = function.parts.iter().map(|(name, _)| name).collect();
        for place in 0..own.len().max(names.len()) {
            let (own, theirs) = (own.get(place).copied(), names.get(place));
            if own != theirs {
                let none = String::from("none");
                let (own, theirs) = (own.unwrap_or(&none), theirs.unwrap_or(&none));
                return Err(format!(
                    "{name}: parameter {place} is {own} in Rust and {theirs} in the header"
                ));
            }
        }
        parameters += own.len();
    }
    if let Some((name, _)) = declared.first_key_value() {
        return Err(format!("the header declares {name} and Rust does not"));
    }
    if functions.is_empty() || structs.len() != 2 {
        return Err("the declarations are not laid out as they were".to_string());
    }
    std::fs::write(file, c_file(&functions, &structs)?).map_err(|fault| fault.to_string())?;
    let compiler = std::env::var("CC").unwrap_or("cc".to_string());
    let flags = [
        "-std=c11",
        "-Wall",
        "-Wextra",
        "-Werror",
        "-pedantic",
        "-fsyntax-only",
    ];
    // It may be given with flags of its own.
    let mut words = compiler.split_whitespace();
    let compiled = Command::new(words.next().unwrap_or("cc"))
        .args(words)
        .args(flags)
        .args(["-I", include])
        .arg(file)
        .output()
        .map_err(|fault| format!("{compiler}: {fault}"))?;
    if !compiled.status.success() {
        return Err(String::from_utf8_lossy(&compiled.stderr).into_owned());
    }
    let fields: usize = structs.iter().map(|one| one.parts.len()).sum();
    Ok(format!(
        "{} entries with {parameters} parameters and {fields} fields of answers",
        functions.len()
    ))
}
