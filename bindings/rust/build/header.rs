//! roqshyn.h in Rust: its structs and functions, in its order and by its names without `Roq`.

/// Structs that programs use as they are: src/rect.rs has them.
pub const PUBLIC: [&str; 3] = ["Pos", "Dims", "Rect"];

/// The text of src/raw.rs: all functions, and the structs that are not public.
pub fn declarations(header: &str) -> String {
    let code = code(header);
    let mut text = String::new();
    for (name, fields) in structs(&code).into_iter().filter(|(name, _)| !PUBLIC.contains(&name.as_str())) {
        let fields: Vec<String> = fields.iter().map(|field| format!("    pub {field},\n")).collect();
        text += &format!("#[repr(C)]\npub struct {name} {{\n{}}}\n\n", fields.concat());
    }
    let functions: Vec<String> = functions(&code).iter().map(|f| format!("    pub {f};\n")).collect();
    text + &format!("extern \"C\" {{\n{}}}\n", functions.concat())
}

/// The header without comments and lines of the preprocessor.
pub fn code(header: &str) -> String {
    let mut rest = header;
    let mut code = String::new();
    while let Some(at) = rest.find("/*") {
        code += &rest[..at];
        rest = &rest[at + rest[at..].find("*/").expect("an end of the comment") + 2..];
    }
    code += rest;
    code.lines().filter(|line| !line.starts_with('#')).collect::<Vec<_>>().join("\n")
}

/// The name of each struct, and its fields.
pub fn structs(code: &str) -> Vec<(String, Vec<String>)> {
    let parts = |declared: &str| {
        let (name, rest) = declared.split_once('{').expect("a name and fields");
        let (fields, _) = rest.split_once('}').expect("an end of the fields");
        (name.trim().to_string(), rust_fields(fields))
    };
    code.split("typedef struct Roq").skip(1).map(parts).collect()
}

fn functions(code: &str) -> Vec<String> {
    let declared = code.split([';', '{', '}']).map(str::trim).filter(|d| d.contains(" roq_"));
    declared.map(|d| rust_function(&d.split_whitespace().collect::<Vec<_>>().join(" "))).collect()
}

fn rust_type(c: &str) -> &str {
    match c {
        "uint8_t" => "u8",
        "uint32_t" => "u32",
        "uint64_t" => "u64",
        "int16_t" => "i16",
        "double" => "f64",
        "size_t" => "usize",
        other => other.strip_prefix("Roq").unwrap_or(other),
    }
}

/// `const uint32_t *store` is `store: *const u32`, and `RoqRect rects[4]` is `rects: [Rect; 4]`.
fn rust_name(c: &str) -> String {
    let words: Vec<&str> = c.split_whitespace().collect();
    let (constant, [kind, name]) = match words[..] {
        ["const", kind, name] => ("const", [kind, name]),
        [kind, name] => ("mut", [kind, name]),
        _ => panic!("a type and a name: {c}"),
    };
    let kind = rust_type(kind);
    if let Some(name) = name.strip_prefix('*') {
        return format!("{name}: *{constant} {kind}");
    }
    match name.split_once('[') {
        Some((name, count)) => format!("{name}: [{kind}; {}]", count.trim_end_matches(']')),
        None => format!("{name}: {kind}"),
    }
}

fn rust_function(c: &str) -> String {
    let (head, parameters) = c.trim_end_matches(')').split_once('(').expect("parameters");
    let (kind, name) = head.trim().rsplit_once(' ').expect("a type and a name");
    let parameters: Vec<String> = parameters.split(',').filter(|&p| p != "void").map(rust_name).collect();
    format!("fn {name}({}) -> {}", parameters.join(", "), rust_type(kind))
}

/// `uint32_t x, y; bool yes;` field by field.
fn rust_fields(c: &str) -> Vec<String> {
    let mut fields = Vec::new();
    for declared in c.split(';').map(str::trim).filter(|d| !d.is_empty()) {
        let (kind, names) = declared.split_once(' ').expect("a type and names");
        fields.extend(names.split(',').map(|name| rust_name(&format!("{kind} {}", name.trim()))));
    }
    fields
}
