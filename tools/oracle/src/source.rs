//! Bytes to the normalised text, the shebang line, and the place where tokens begin.

pub struct Source {
    pub text: String,
    pub shebang: Option<String>,
    pub start: usize,
}

pub fn is_white(c: char) -> bool {
    matches!(
        c,
        '\u{9}' | '\u{a}' | '\u{b}' | '\u{c}' | '\u{d}' | '\u{20}' | '\u{85}' | '\u{200e}' | '\u{200f}' | '\u{2028}' | '\u{2029}'
    )
}

/// The source of the bytes, or the length of the longest prefix that is UTF-8.
pub fn normalise(bytes: &[u8]) -> Result<Source, usize> {
    let raw = match std::str::from_utf8(bytes) {
        Ok(s) => s,
        Err(e) => return Err(e.valid_up_to()),
    };
    let raw = raw.strip_prefix('\u{feff}').unwrap_or(raw);
    let text = raw.replace("\r\n", "\n");
    let (line_end, after) = match text.find('\n') {
        Some(n) => (n, n + 1),
        None => (text.len(), text.len()),
    };
    let first = &text[..line_end];
    let mut shebang = None;
    let mut start = 0;
    if let Some(tail) = first.strip_prefix("#!") {
        let t = tail.trim_start_matches(is_white);
        let no = t.is_empty() || t.starts_with('[') || t.starts_with("//") || t.starts_with("/*");
        if !no {
            shebang = Some(first.trim_end_matches('\r').to_string());
            start = after;
        }
    }
    Ok(Source { text, shebang, start })
}
