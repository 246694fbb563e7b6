//! The three texts that have to agree: the Rattle source, src/boundary.rs and include/alac.h.

use std::fs;
use std::path::Path;

const RATTLE: &str = "../../crates/alac_c/src/lib.rt";
const RUST: &str = "src/boundary.rs";
const HEADER: &str = "../../include/alac.h";

/// A slice, or an array of so many elements, that is only read or that is changed.
#[derive(Debug, PartialEq)]
struct Param {
    name: String,
    mutable: bool,
    element: String,
    array: Option<String>,
}

#[derive(Debug, PartialEq)]
struct Function {
    name: String,
    params: Vec<Param>,
    result: String,
}

type Parsed = Result<Vec<Function>, String>;

fn text(path: &str) -> String {
    let path = Path::new(env!("CARGO_MANIFEST_DIR")).join(path);
    fs::read_to_string(&path).unwrap_or_else(|why| panic!("{}: {why}", path.display()))
}

fn texts() -> [String; 3] {
    [RATTLE, RUST, HEADER].map(text)
}

/// One space wherever there is any.
fn plain(text: &str) -> String {
    text.split_whitespace().collect::<Vec<_>>().join(" ")
}

fn between<'a>(text: &'a str, open: &str, close: &str) -> Result<&'a str, String> {
    let (_, rest) = text.split_once(open).ok_or(format!("no '{open}' in {text}"))?;
    let (inside, _) = rest.split_once(close).ok_or(format!("no '{close}' in {text}"))?;
    Ok(inside)
}

fn items(list: &str) -> Vec<&str> {
    list.split(',').map(str::trim).filter(|item| !item.is_empty()).collect()
}

/// `&[u8]`, `&mut [u64; 4]`
fn rattle_param(item: &str) -> Result<Param, String> {
    let (name, of) = item.split_once(": &").ok_or(format!("neither slice nor array: {item}"))?;
    let inside = between(of, "[", "]")?;
    let (element, array) = match inside.split_once("; ") {
        Some((element, length)) => (element, Some(length.to_string())),
        None => (inside, None),
    };
    Ok(Param { name: name.to_string(), mutable: of.starts_with("mut "), element: element.to_string(), array })
}

fn rattle_functions(text: &str) -> Parsed {
    let functions = text.split("extern \"C\" fn ").skip(1);
    let parse = |rest: &str| {
        let (name, rest) = rest.split_once('(').ok_or("no parameters")?;
        let (params, rest) = rest.split_once(") -> ").ok_or("no result")?;
        let result = rest.split_whitespace().next().unwrap_or_default().to_string();
        let params = items(params).into_iter().map(rattle_param).collect::<Result<_, _>>()?;
        Ok(Function { name: name.to_string(), params, result })
    };
    functions.map(parse).collect()
}

/// A pointer's parameters: an array is one, a slice is followed by its length, `NAME_len`.
fn pointers(
    items: &[&str],
    one: fn(&str) -> Result<Param, String>,
    length: fn(&str) -> String,
) -> Result<Vec<Param>, String> {
    let mut params = Vec::new();
    let mut rest = items.iter();
    while let Some(item) = rest.next() {
        let param = one(item)?;
        if param.array.is_none() && rest.next() != Some(&length(&param.name).as_str()) {
            return Err(format!("no length after {item}"));
        }
        params.push(param);
    }
    Ok(params)
}

/// `cookie: *const u8`, `answer: *mut [u64; 4]`
fn rust_param(item: &str) -> Result<Param, String> {
    let (name, of) = item.split_once(": *").ok_or(format!("no pointer: {item}"))?;
    let (access, of) = of.split_once(' ').ok_or(format!("no type: {item}"))?;
    let (element, array) = match of.strip_prefix('[').and_then(|of| of.strip_suffix(']')) {
        Some(array) => {
            array.split_once("; ").map(|(e, n)| (e, Some(n.to_string()))).ok_or(format!("no array: {item}"))?
        }
        None => (of, None),
    };
    Ok(Param { name: name.to_string(), mutable: access == "mut", element: element.to_string(), array })
}

fn rust_functions(text: &str) -> Parsed {
    let declared = between(text, "extern \"C\" {\n", "\n}")?;
    let code: Vec<&str> = declared.lines().filter(|line| !line.trim().starts_with("//")).collect();
    let code = plain(&code.join(" "));
    let parse = |declaration: &str| {
        let (name, rest) = declaration.split_once('(').ok_or("no parameters")?;
        let (params, rest) = rest.split_once(") -> ").ok_or("no result")?;
        let (result, _) = rest.split_once(';').ok_or("no end")?;
        let params = pointers(&items(params), rust_param, |name| format!("{name}_len: usize"))?;
        Ok(Function { name: name.to_string(), params, result: result.to_string() })
    };
    code.split("fn ").skip(1).map(parse).collect()
}

/// The Rust name of a C type.
fn rust_type(c: &str) -> Result<String, String> {
    let bits = c.strip_suffix("_t").ok_or(format!("unknown type {c}"))?;
    Ok(bits.replace("uint", "u").replace("int", "i"))
}

/// `const uint8_t *cookie`, `uint64_t answer[4]`
fn c_param(item: &str) -> Result<Param, String> {
    let (mutable, of) = match item.strip_prefix("const ") {
        Some(of) => (false, of),
        None => (true, item),
    };
    let (element, name) = of.split_once(' ').ok_or(format!("no name: {item}"))?;
    let (name, array) = match (name.strip_prefix('*'), name.split_once('[')) {
        (Some(name), None) => (name, None),
        (None, Some((name, length))) => (name, Some(length.trim_end_matches(']').to_string())),
        _ => return Err(format!("no pointer: {item}")),
    };
    Ok(Param { name: name.to_string(), mutable, element: rust_type(element)?, array })
}

fn c_functions(text: &str) -> Parsed {
    let parse = |declaration: &str| {
        let (head, rest) = declaration.split_once('(').ok_or("no parameters")?;
        let (result, name) = head.rsplit_once(' ').ok_or("no result")?;
        let (params, _) = rest.split_once(')').ok_or("no end")?;
        let params = pointers(&items(params), c_param, |name| format!("size_t {name}_len"))?;
        Ok(Function { name: name.to_string(), params, result: rust_type(result)? })
    };
    let text = text.replace("\\\n", " ");
    let code = text.split("/*").map(|part| part.split_once("*/").map_or(part, |(_, code)| code));
    let code = code.collect::<Vec<_>>().join(" ");
    let code: Vec<&str> = code.lines().filter(|line| !line.trim_start().starts_with('#')).collect();
    let code = plain(&code.join(" "));
    code.split(';').map(str::trim).filter(|part| part.contains("alac_") && part.ends_with(')')).map(parse).collect()
}

/// Why the three texts do not say the same, if they do not.
fn disagreement([rattle, rust, header]: &[String; 3]) -> Option<String> {
    match [rattle_functions(rattle), rust_functions(rust), c_functions(header)] {
        [Ok(rattle), Ok(rust), Ok(header)] if rattle == rust && rattle == header => None,
        [rattle, rust, header] => Some(format!("Rattle: {rattle:#?}\nRust: {rust:#?}\nC: {header:#?}")),
    }
}

#[test]
fn the_three_signatures_agree() {
    assert!(rattle_functions(&text(RATTLE)).expect("the exported functions").len() >= 4);
    if let Some(why) = disagreement(&texts()) {
        panic!("{why}");
    }
}

/// The comment above each declaration is the Rattle signature, word for word.
#[test]
fn the_signature_beside_each_declaration_is_the_source() {
    let rust = text(RUST);
    let comments: Vec<&str> = rust.lines().filter_map(|line| line.trim().strip_prefix("// ")).collect();
    let comments = plain(&comments.join(" "));
    let source = plain(&text(RATTLE));
    for part in source.split("pub extern \"C\" fn ").skip(1) {
        let signature = format!("pub extern \"C\" fn {}", part.split(" ensures").next().unwrap_or_default());
        assert!(comments.contains(&signature), "not in {RUST}: {signature}");
    }
}

/// Each edit of one text alone is found: which text, what is edited, and what it becomes.
#[test]
fn a_mismatch_is_found() {
    let edits = [
        (0, "packet: &[u8],\n    out: &mut [i16],", "out: &mut [i16],\n    packet: &[u8],"),
        (0, "settings: &[i16]", "settings: &[i32]"),
        (0, "fields: &mut [u64; 11]", "fields: &mut [u64; 12]"),
        (0, "bytes: &mut [u8]", "bytes: &[u8]"),
        (0, "answer: &mut [u64; 4],\n) -> u32", "answer: &mut [u64],\n) -> u32"),
        (0, "extern \"C\" fn alac_stream_info", "extern \"C\" fn alac_info"),
        (0, "answer: &mut [u64; 4],\n) -> u32", "answer: &mut [u64; 4],\n) -> u64"),
        (0, "#[unsafe(no_mangle)]", "#[unsafe(no_mangle)]\npub extern \"C\" fn alac_more(a: &[u8]) -> u32\n{}\n"),
        (1, "fn alac_stream_info(cookie: *const u8", "fn alac_stream_info(cookie: *mut u8"),
        (1, "fields: *mut [u64; 11]", "fields: *mut [u64; 10]"),
        (1, "fields: *mut [u64; 11]", "fields: *mut u64"),
        (1, "passage: *const i16", "passage: *const u16"),
        (1, "scratch_len: usize", "scratch_len: u32"),
        (1, "        packet_len: usize,\n", ""),
        (1, "    fn alac_encode_packet_i16(", "    fn alac_encode_packet_i32("),
        (2, "const uint8_t *cookie", "uint8_t *cookie"),
        (2, "int32_t *scratch, size_t scratch_len", "size_t scratch_len, int32_t *scratch"),
        (2, "uint64_t answer[4]", "uint64_t answer[3]"),
        (2, "int16_t *out", "int32_t *out"),
        (2, "uint32_t alac_decode_packet_i32", "uint64_t alac_decode_packet_i32"),
        (2, "uint32_t alac_encode_packet_i16", "uint32_t alac_encode_packet"),
    ];
    for (which, old, new) in edits {
        let mut texts = texts();
        assert_eq!(disagreement(&texts), None);
        assert!(texts[which].contains(old), "nothing to edit: {old}");
        texts[which] = texts[which].replacen(old, new, 1);
        assert!(disagreement(&texts).is_some(), "not found: {old} as {new}");
    }
}
