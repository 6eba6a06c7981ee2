//! Texts in a line of `replayed_cases`.

/// Escapes the characters that end a field or a line, or begin an escape.
pub fn escaped(text: &str) -> String {
    text.replace('\\', "\\\\").replace('\n', "\\n").replace('\r', "\\r").replace('\t', "\\t")
}
