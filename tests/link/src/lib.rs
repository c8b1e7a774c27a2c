//! The functions, and the struct of the counts, as they are declared in C (the header), in Rust (the package) and in
//! Rattle (the crates), in one form.
#![forbid(unsafe_code)]

use std::collections::BTreeMap;

#[cfg(test)]
mod tests;

/// A function: its parameters, each with name and type, and what it gives. A slice is two parameters.
#[derive(Clone, Debug, PartialEq, Eq)]
pub struct Function {
    pub parameters: Vec<(String, String)>,
    pub gives: String,
}

/// Functions by their names.
pub type Functions = BTreeMap<String, Function>;

/// The fields of a struct in their order, each with name and type.
pub type Fields = Vec<(String, String)>;

fn is_name(c: char) -> bool {
    c.is_ascii_alphanumeric() || c == '_'
}

/// The text without what stands from `begin` to the next `end`.
pub fn without(text: &str, begin: &str, end: &str) -> String {
    let mut parts = text.split(begin);
    let first = parts.next().unwrap_or_default();
    let rests = parts.map(|part| part.split_once(end).map_or("", |(_, rest)| rest));
    std::iter::once(first).chain(rests).collect::<Vec<&str>>().join("\n")
}

/// The declarations that begin with a word: name, text between the parentheses, text behind them up to `;` or a line's end.
fn declared<'a>(text: &'a str, word: &str) -> Vec<(&'a str, &'a str, &'a str)> {
    let parts = text.split(word).skip(1);
    let split = |part: &'a str| {
        let (name, rest) = part.split_once('(')?;
        let (parameters, behind) = rest.split_once(')')?;
        let behind = behind.split([';', '\n']).next()?;
        name.chars().all(is_name).then_some((name, parameters, behind))
    };
    parts.filter_map(split).collect()
}

/// The parameters between parentheses, without blanks around them.
fn listed(parameters: &str) -> impl Iterator<Item = &str> {
    parameters.split(',').map(str::trim).filter(|p| !p.is_empty() && *p != "void")
}

/// A type of C as Rust spells it.
fn from_c(spelled: &str) -> String {
    let plain = spelled.replace("const", "").replace('*', "");
    let plain = match plain.trim() {
        "uint64_t" => "u64",
        "uint32_t" => "u32",
        "uint8_t" => "u8",
        "size_t" => "usize",
        "void" => "()",
        "struct qspi_counts" => "Counts",
        other => other,
    };
    match (spelled.contains('*'), spelled.contains("const")) {
        (true, true) => format!("*const {plain}"),
        (true, false) => format!("*mut {plain}"),
        (false, _) => String::from(plain),
    }
}

/// The name and the type of what C declares by both.
fn named_in_c(declared: &str) -> (String, String) {
    let name = declared.rsplit(|c| !is_name(c)).next().unwrap_or_default();
    (String::from(name), from_c(declared.strip_suffix(name).unwrap_or(declared)))
}

/// What stands between the braces of the struct that begins with these words.
fn body<'a>(text: &'a str, words: &str) -> &'a str {
    let (_, rest) = text.split_once(&format!("{words} {{")).unwrap_or_default();
    rest.split_once('}').map_or("", |(body, _)| body)
}

/// The fields of the counts in a C header.
pub fn counts_in_c(text: &str) -> Fields {
    let text = without(text, "/*", "*/");
    let fields = body(&text, "struct qspi_counts").split(';').map(str::trim);
    fields.filter(|field| !field.is_empty()).map(named_in_c).collect()
}

/// The fields of the counts in Rust text, or in Rattle's, where they lie as they do in C.
pub fn counts_in_rust(text: &str) -> Fields {
    let text = without(text, "//", "\n");
    let (before, _) = text.split_once("pub struct Counts {").unwrap_or_default();
    let laid_out = before.rsplit(['}', ';']).next().is_some_and(|attributes| attributes.contains("#[repr(C)]"));
    let field = |declared: &str| {
        let (name, kind) = declared.trim().strip_prefix("pub ")?.split_once(": ")?;
        laid_out.then(|| (String::from(name), String::from(kind)))
    };
    listed(body(&text, "pub struct Counts")).filter_map(field).collect()
}

/// The functions of a C header.
pub fn in_c(text: &str) -> Functions {
    let text = without(&without(text, "/*", "*/"), "#", "\n");
    let mut functions = Functions::new();
    for statement in text.split([';', '{', '}']) {
        let Some((head, rest)) = statement.split_once('(') else { continue };
        // (a static assertion has no type before it)
        let Some((gives, name)) = head.trim().rsplit_once(char::is_whitespace) else { continue };
        let parameters = listed(rest.trim_end().trim_end_matches(')')).map(named_in_c).collect();
        functions.insert(String::from(name), Function { parameters, gives: from_c(gives) });
    }
    functions
}

/// What a function gives, of the text behind its parameters.
fn behind_arrow(behind: &str) -> String {
    behind.trim().strip_prefix("->").map_or("()", str::trim).into()
}

/// The functions of Rust declarations.
pub fn in_rust(text: &str) -> Functions {
    let parameter = |p: &str| {
        let (name, kind) = p.split_once(':').unwrap_or_default();
        (String::from(name), kind.trim().replace("&mut ", "*mut "))
    };
    let function = |(name, parameters, behind): (&str, &str, &str)| {
        let parameters = listed(parameters).map(parameter).collect();
        (String::from(name), Function { parameters, gives: behind_arrow(behind) })
    };
    declared(&without(text, "//", "\n"), "fn ").into_iter().map(function).collect()
}

/// The parameters that one of Rattle is: a slice is a pointer and a length.
fn from_rattle(parameter: &str) -> Vec<(String, String)> {
    let (name, kind) = parameter.split_once(':').unwrap_or_default();
    let kind = match kind.trim() {
        lent if lent.starts_with("&mut ") => lent.replace("&mut ", "*mut "),
        lent => lent.replace('&', "*const "),
    };
    let pointer = (String::from(name), kind.replace(['[', ']'], ""));
    let length = kind.contains('[').then(|| (format!("{name}_len"), String::from("usize")));
    std::iter::once(pointer).chain(length).collect()
}

/// The functions that Rattle text exports.
pub fn in_rattle(text: &str) -> Functions {
    let function = |(name, parameters, behind): (&str, &str, &str)| {
        let parameters = listed(parameters).flat_map(from_rattle).collect();
        (String::from(name), Function { parameters, gives: behind_arrow(behind) })
    };
    declared(&without(text, "//", "\n"), "extern \"C\" fn ").into_iter().map(function).collect()
}
