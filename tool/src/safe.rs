//! Text that may be shown. What comes from a file or from a call may hold bytes that a terminal obeys; none of them is passed on.

/// Has the character no picture of its own, or does it move those of others? Control characters do, and those that change the direction of writing.
pub fn is_hidden(c: char) -> bool {
    c.is_control()
        || matches!(c,
            '\u{AD}' | '\u{61C}' | '\u{180E}' | '\u{200B}'..='\u{200F}' | '\u{2028}'..='\u{202E}'
            | '\u{2060}'..='\u{206F}' | '\u{FEFF}' | '\u{FFF9}'..='\u{FFFB}' | '\u{FFFE}'..='\u{FFFF}' | '\u{E0000}'..='\u{E007F}')
}

/// A text in one line, with hidden characters written out: `\n`, `\t`, else `\x1B` or `\u{202E}`.
pub fn shown(text: &str) -> String {
    let mut line = String::with_capacity(text.len());
    for c in text.chars() {
        match c {
            '\n' => line.push_str("\\n"),
            '\t' => line.push_str("\\t"),
            c if is_hidden(c) && c.is_ascii() => line.push_str(&format!("\\x{:02X}", u32::from(c))),
            c if is_hidden(c) => line.push_str(&format!("\\u{{{:X}}}", u32::from(c))),
            c => line.push(c),
        }
    }
    line
}

#[cfg(test)]
mod tests {
    use super::shown;

    #[test]
    fn hidden_characters_are_written_out() {
        assert_eq!(shown("Gleis 1, größer, 信号"), "Gleis 1, größer, 信号");
        assert_eq!(shown("a\nb\tc\u{1B}[2Jd\u{7F}"), "a\\nb\\tc\\x1B[2Jd\\x7F");
        assert_eq!(shown("\u{9B}31m\u{202E}x\u{FEFF}"), "\\u{9B}31m\\u{202E}x\\u{FEFF}");
    }
}
