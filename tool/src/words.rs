//! Refusals in words, as README.md has them under "In words": what is wrong, and what would mend it. "Here" is the place that is told.

use planksling::Cause;
use planksling_backup::Cause as OfBackups;

/// A rule that was not kept, as it is told.
#[derive(Clone, Copy)]
pub struct Rule {
    pub number: usize,
    /// The rule in a few words.
    pub rule: &'static str,
    pub what: &'static str,
    pub mend: &'static str,
}

impl From<Cause> for Rule {
    fn from(cause: Cause) -> Rule {
        let (what, mend) = words(cause);
        Rule { number: cause.number(), rule: cause.words(), what, mend }
    }
}

impl From<OfBackups> for Rule {
    fn from(cause: OfBackups) -> Rule {
        let (what, mend) = backup_words(cause);
        Rule { number: cause.number(), rule: cause.words(), what, mend }
    }
}

/// What is wrong, and what would mend it.
fn words(cause: Cause) -> (&'static str, &'static str) {
    match cause {
        Cause::NoEnd => (
            "The text isn't closed by a zero byte, or that byte comes too late.",
            "Put one zero byte behind the text, and keep the text below 65,536 bytes.",
        ),
        Cause::BadCharacter => (
            "The byte here begins no character that may stand in a description.",
            "Save the text as UTF-8 without a byte-order mark, end its lines with a newline alone, and take \
             control characters out.",
        ),
        Cause::OtherFirstLine => (
            "The first line isn't the one that every description begins with.",
            "Write exactly `<?xml version=\"1.0\"?>`, and a newline right behind it.",
        ),
        Cause::Malformed => (
            "What begins here isn't well-formed XML.",
            "Look for a quote, a blank between attributes or a `>` that is missing, for an attribute that \
             stands twice, and for a bare `<` or `&` in text, which are written `&lt;` and `&amp;`.",
        ),
        Cause::Unsupported => (
            "What begins here is XML that isn't supported: a DOCTYPE, a CDATA section, or a tag with `&` in an \
             attribute.",
            "Take it out, and write the text of a CDATA section as plain text.",
        ),
        Cause::NotOneTree => (
            "An end tag here has no start tag that it closes, or something stands outside the root element; at \
             the end of the text it says that an element is still open or that there is no root.",
            "Close every element by its own end tag, the innermost first, and put all of them into one `cdi`.",
        ),
        Cause::TooDeepOrMany => (
            "The element here is nested too deep, or is one too many.",
            "Keep to 24 levels and to 4,096 elements in all.",
        ),
        Cause::UnknownElement => (
            "The element here is not known at this place.",
            "Its name is misspelt, or it belongs into another element: correct it, move it or take it out. The \
             outermost element must be `cdi`.",
        ),
        Cause::ElementOutOfOrder => (
            "The element here comes too late; the children of an element have a fixed order, such as name, \
             description, min, max.",
            "Move it up, in front of those that have to follow it.",
        ),
        Cause::ElementTooOften => (
            "The element here stands in its parent for the second time or more, and once is allowed.",
            "Keep one and take the others out.",
        ),
        Cause::MissingChild => {
            ("The relation here lacks its property or its value.", "Give it one of each, the property first.")
        }
        Cause::UnknownAttribute => (
            "The attribute here is not one that its element has.",
            "Its name is misspelt, or it belongs to another element: correct it or take it out.",
        ),
        Cause::MissingAttribute => (
            "The tag here lacks an attribute that it must have.",
            "Add it: `space` to a segment, `size` to a string or a float, both attributes of the standard to \
             `cdi`.",
        ),
        Cause::WrongFixedText => (
            "The text of the attribute here is not the one that the standard fixes.",
            "Copy the two texts of `cdi` letter by letter; `formatting` is a percent sign, digits, perhaps a \
             point and digits, and an f, as `%5.2f`.",
        ),
        Cause::StrayText => (
            "Text, or a reference such as `&amp;`, stands here where only elements may stand.",
            "Take it out, or put it into an element that holds text, such as a description.",
        ),
        Cause::NotANumber => (
            "The element here has something else where a number must stand, in an attribute or as its text.",
            "Write digits alone, with a plus or a minus in front if need be: no letters, no point, no comment, \
             no blank between digits.",
        ),
        Cause::OutOfRange => (
            "A number or a size of the element here is out of range.",
            "Write one that is allowed there: a size of 1, 2, 4 or 8 for an int, of 2, 4 or 8 for a float; a \
             min and a max that fit the int's size, and a min that isn't above the max.",
        ),
        Cause::AddressOutOfRange => (
            "Variables of the segment here come to lie below address 0 or beyond 2^32.",
            "Correct its origin, or an offset, a size or a replication in it.",
        ),
        Cause::TooManyVariables => {
            ("The description has more than 1,000,000 variables, all copies of groups counted.", "Replicate less.")
        }
        Cause::TableTooShort => (
            "The table has no room for the records.",
            "Lend eight numbers for each segment and data element; 32,760 are enough for every description.",
        ),
        Cause::NotAPlan => (
            "The table is not a plan, or not the plan of this text.",
            "Plan the text again, and hand over its records and nothing behind them.",
        ),
        Cause::NoVariable => (
            "There is no variable with this number.",
            "They are numbered from 0, up to one less than the count that planning gave.",
        ),
        Cause::OtherKind => (
            "The value is of another kind than the variable.",
            "Write an integer to an int, an event ID to an eventid, a text to a string.",
        ),
        Cause::OutOfBounds => (
            "The integer is smaller or larger than this variable may be.",
            "Write one from its min, or 0 if it has none, to its max, or the most that its size holds.",
        ),
        Cause::NotInMap => (
            "The variable takes only the values that its map lists, and this isn't one of them.",
            "Write one that is listed; a map that lists none takes none.",
        ),
        Cause::UnstorableText => (
            "The text can't be stored: it has a zero byte in it, isn't UTF-8, or is too long.",
            "Leave one byte of the variable's size for the closing zero.",
        ),
        Cause::OutsideWindow => (
            "The window doesn't hold all of the variable.",
            "Hand over one of the variable's space that reaches from its first byte to its last.",
        ),
        Cause::Withheld => (
            "Floats can be neither written nor read here, and an eventid that has a map can only be read.",
            "Leave this variable alone.",
        ),
        Cause::UnreadableText => (
            "The bytes of this string are no text: no zero closes them, or what stands before it isn't UTF-8.",
            "Write the string anew.",
        ),
        Cause::JournalFull => (
            "No more edits can be kept: 64 stand, or the journal has no room for another one.",
            "Take edits back, or go on with a new session and a journal of 65,536 bytes; what stands now then stays.",
        ),
        Cause::NothingToUndo => (
            "There is nothing to take back: no edit stands.",
            "All edits of the session were taken back already, or none was made.",
        ),
        Cause::BadEntry => (
            "The latest edit can't be taken back: the journal doesn't hold it whole, or it isn't that of a setting in \
             this window.",
            "Hand over the description, the window and the journal with which it was made.",
        ),
        // a cause of a later library
        _ => (cause.words(), ""),
    }
}

/// The same of a backup.
fn backup_words(cause: OfBackups) -> (&'static str, &'static str) {
    match cause {
        OfBackups::NotStorable => (
            "This window can't be stored: it is empty, has more than 2^32 bytes, or its space is above 255.",
            "Hand over at least one byte, and the number of the space that the bytes are of.",
        ),
        OfBackups::NoRoom => (
            "The lent output is too small.",
            "To store a window lend 512 bytes for each 502 of it, rounded up; to read a backup lend as many bytes as its \
             window has.",
        ),
        OfBackups::NotWhole => (
            "This is no row of whole blocks: it is empty, or its length is no multiple of 512.",
            "It was cut off, something was put behind it, or it is no backup. Take another copy of it.",
        ),
        OfBackups::BadCheck => (
            "The bytes of this block are not those that were stored: its check doesn't fit them.",
            "Take another copy of the backup; the other blocks may be good.",
        ),
        OfBackups::BadField => (
            "This block is not the one that belongs here: its number, space, length, flag or padding is another.",
            "Blocks are missing, stand at other places or are of another backup. Take a whole copy of the backup.",
        ),
        // a cause of a later library
        _ => (cause.words(), ""),
    }
}

#[cfg(test)]
mod tests {
    use super::{OfBackups, Rule};
    use planksling::Cause;
    use std::collections::BTreeMap;

    /// The list of the page: an item begins with the number, and its further lines are indented.
    fn page() -> BTreeMap<usize, String> {
        let readme = include_str!("../../README.md");
        let (_, behind) = readme.split_once("### In words").expect("the list");
        let (list, _) = behind.split_once("\n## ").expect("what follows it");
        let items = list.split("\n- **").skip(1).map(|item| {
            let (number, text) = item.split_once("**: ").expect("a number");
            let item = text.split("\n\n").next().expect("the item's text");
            (number.parse().expect("a number"), item.split_whitespace().collect::<Vec<_>>().join(" "))
        });
        items.collect()
    }

    #[test]
    fn words_of_the_page() {
        let page = page();
        let rules = Cause::ALL.iter().map(|&cause| Rule::from(cause));
        let rules: Vec<Rule> = rules.chain(OfBackups::ALL.iter().map(|&cause| Rule::from(cause))).collect();
        assert_eq!(page.len(), rules.len());
        for Rule { number, what, mend, .. } in rules {
            assert_eq!(page[&number], format!("{what} {mend}"));
        }
    }
}
