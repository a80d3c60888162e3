//! Where a place stands in a text, as a person counts: line, column, and the line itself with a mark under the place.

use crate::safe::is_hidden;

/// The most characters of a line that are shown, and how many of them stand before the place in a line that is cut.
const SHOWN: usize = 72;
const BEFORE: usize = 32;

/// What stands for a character that isn't shown, and for a part of the line that is left out.
const DOT: char = '·';
const CUT: char = '…';

/// A place in a text. Lines and columns count from 1, columns in characters; a byte that is part of no character counts as one.
pub struct Spot {
    pub line: usize,
    pub column: usize,
    /// The line, or the part of it around the place, without anything that a terminal obeys but tabs.
    pub shown: String,
    /// How many characters of `shown` stand before the place.
    pub before: usize,
}

impl Spot {
    /// This place of a text's content.
    pub fn new(content: &[u8], place: usize) -> Spot {
        let place = place.min(content.len());
        let begin = content[..place].iter().rposition(|&byte| byte == b'\n').map_or(0, |newline| newline + 1);
        let end =
            content[place..].iter().position(|&byte| byte == b'\n').map_or(content.len(), |length| place + length);
        let mut line = shown_characters(&content[begin..place]);
        let at = line.len();
        line.extend(shown_characters(&content[place..end]));
        let (shown, before) = cut(&line, at);
        let lines = content[..begin].iter().filter(|&&byte| byte == b'\n').count();
        Spot { line: lines + 1, column: at + 1, shown, before }
    }

    /// The end of a text's content: behind its last character that is no newline, so that the line of the mark isn't empty.
    pub fn end(content: &[u8]) -> Spot {
        let last = content.iter().rposition(|&byte| byte != b'\n').map_or(0, |last| last + 1);
        Spot::new(content, last)
    }

    /// The line as shown, and below it the mark. Tabs stand before the mark too, so that it is right however wide they are.
    pub fn lines(&self, indent: &str) -> String {
        let mut below = String::new();
        for c in self.shown.chars().take(self.before) {
            match c {
                '\t' => below.push('\t'),
                c => below.extend(std::iter::repeat_n(' ', width(c))),
            }
        }
        let line = format!("{indent}{}", self.shown);
        format!("{}\n{indent}{below}^\n", line.trim_end_matches(' '))
    }
}

/// The characters of these bytes as they are shown. Each byte that is part of no character is one.
fn shown_characters(bytes: &[u8]) -> Vec<char> {
    let mut characters = vec![];
    for chunk in bytes.utf8_chunks() {
        characters.extend(chunk.valid().chars().map(|c| if c != '\t' && is_hidden(c) { DOT } else { c }));
        characters.extend(chunk.invalid().iter().map(|_| DOT));
    }
    characters
}

/// The part of a line around a place, and how many of its characters stand before that.
fn cut(line: &[char], at: usize) -> (String, usize) {
    let begin = if line.len() <= SHOWN { 0 } else { at.saturating_sub(BEFORE).min(line.len() - SHOWN) };
    let end = line.len().min(begin + SHOWN);
    let mut shown = String::new();
    if 0 < begin {
        shown.push(CUT);
    }
    shown.extend(&line[begin..end]);
    if end < line.len() {
        shown.push(CUT);
    }
    (shown, at - begin + usize::from(0 < begin))
}

/// The columns that a terminal gives to a character: none to those that stand on another one, two to the wide ones of East Asia and to pictures.
fn width(c: char) -> usize {
    match c {
        '\u{300}'..='\u{36F}'
        | '\u{483}'..='\u{489}'
        | '\u{591}'..='\u{5BD}'
        | '\u{610}'..='\u{61A}'
        | '\u{64B}'..='\u{65F}'
        | '\u{93C}'
        | '\u{94D}'
        | '\u{E31}'
        | '\u{E34}'..='\u{E3A}'
        | '\u{E47}'..='\u{E4E}'
        | '\u{1AB0}'..='\u{1AFF}'
        | '\u{1DC0}'..='\u{1DFF}'
        | '\u{20D0}'..='\u{20FF}'
        | '\u{FE00}'..='\u{FE0F}'
        | '\u{FE20}'..='\u{FE2F}'
        | '\u{E0100}'..='\u{E01EF}' => 0,
        '\u{1100}'..='\u{115F}'
        | '\u{2E80}'..='\u{303E}'
        | '\u{3041}'..='\u{4DBF}'
        | '\u{4E00}'..='\u{A4CF}'
        | '\u{A960}'..='\u{A97F}'
        | '\u{AC00}'..='\u{D7A3}'
        | '\u{F900}'..='\u{FAFF}'
        | '\u{FE30}'..='\u{FE6F}'
        | '\u{FF01}'..='\u{FF60}'
        | '\u{FFE0}'..='\u{FFE6}'
        | '\u{1F300}'..='\u{1F64F}'
        | '\u{1F680}'..='\u{1F6FF}'
        | '\u{1F900}'..='\u{1F9FF}'
        | '\u{20000}'..='\u{3FFFD}' => 2,
        _ => 1,
    }
}

#[cfg(test)]
mod tests {
    use super::*;

    fn told(content: &[u8], place: usize) -> (usize, usize, String) {
        let spot = Spot::new(content, place);
        (spot.line, spot.column, spot.lines(""))
    }

    #[test]
    fn lines_and_columns() {
        assert_eq!(told(b"", 0), (1, 1, "\n^\n".to_string()));
        assert_eq!(told(b"ab\ncd", 0), (1, 1, "ab\n^\n".to_string()));
        assert_eq!(told(b"ab\ncd", 2), (1, 3, "ab\n  ^\n".to_string()));
        assert_eq!(told(b"ab\ncd", 3), (2, 1, "cd\n^\n".to_string()));
        assert_eq!(told(b"ab\ncd", 5), (2, 3, "cd\n  ^\n".to_string()));
        assert_eq!(told(b"ab\n", 3), (2, 1, "\n^\n".to_string()));
    }

    #[test]
    fn tabs_and_letters_of_several_bytes() {
        assert_eq!(told(b"\t\ta<b", 3), (1, 4, "\t\ta<b\n\t\t ^\n".to_string()));
        assert_eq!(told("äß€<b".as_bytes(), 7), (1, 4, "äß€<b\n   ^\n".to_string()));
        assert_eq!(told("信号<b".as_bytes(), 6), (1, 3, "信号<b\n    ^\n".to_string()));
        assert_eq!(told("e\u{301}<b".as_bytes(), 3), (1, 3, "e\u{301}<b\n ^\n".to_string()));
        assert_eq!(told("🚂<b".as_bytes(), 4), (1, 2, "🚂<b\n  ^\n".to_string()));
    }

    #[test]
    fn nothing_that_a_terminal_obeys() {
        assert_eq!(told(b"\x1B[2Ja", 5), (1, 6, "·[2Ja\n     ^\n".to_string()));
        assert_eq!(told(b"\xFF\xC3(a\r", 3), (1, 4, "··(a·\n   ^\n".to_string()));
        assert_eq!(told("\u{202E}\u{9B}a".as_bytes(), 5), (1, 3, "··a\n  ^\n".to_string()));
    }

    #[test]
    fn long_lines_are_cut_around_the_place() {
        let line: String = ('a'..='z').cycle().take(1000).collect();
        for place in 0..=line.len() {
            let spot = Spot::new(line.as_bytes(), place);
            let shown: Vec<char> = spot.shown.chars().collect();
            assert!(shown.len() <= SHOWN + 2 && spot.before <= shown.len());
            assert_eq!(shown.get(spot.before).copied(), line.chars().nth(place));
            assert_eq!(shown[0] == CUT, BEFORE < place);
            assert_eq!(shown[shown.len() - 1] == CUT, place < line.len() - (SHOWN - BEFORE));
        }
    }

    #[test]
    fn the_end_is_behind_the_last_character() {
        let at = |content: &[u8]| (Spot::end(content).line, Spot::end(content).column);
        assert_eq!(at(b""), (1, 1));
        assert_eq!(at(b"\n\n"), (1, 1));
        assert_eq!(at(b"ab\ncd"), (2, 3));
        assert_eq!(at(b"ab\ncd\n\n"), (2, 3));
        assert_eq!(at(b"ab\ncd  \n"), (2, 5));
    }
}
