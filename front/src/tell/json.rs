//! JSON: texts, lists and maps. No text can end the script element of a page either.

pub fn text(plain: &str) -> String {
    let mut out = String::from("\"");
    for c in plain.chars() {
        match c {
            '"' | '\\' => out.extend(['\\', c]),
            '<' | '\u{2028}' | '\u{2029}' => out += &format!("\\u{:04x}", c as u32),
            _ if c.is_control() => out += &format!("\\u{:04x}", c as u32),
            _ => out.push(c),
        }
    }
    out + "\""
}

pub fn list(items: impl IntoIterator<Item = String>) -> String {
    format!("[{}]", items.into_iter().collect::<Vec<String>>().join(","))
}

/// Fields in their order, each with its value as JSON.
pub fn map<Name: AsRef<str>>(fields: &[(Name, String)]) -> String {
    let fields = fields
        .iter()
        .map(|(name, value)| format!("{}:{value}", text(name.as_ref())));
    format!("{{{}}}", fields.collect::<Vec<String>>().join(","))
}
