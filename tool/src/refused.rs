//! A refusal as a person wants it: file, line and column or block, the rule, the line itself with a mark under the place, what is wrong and what would
//! mend it.

use crate::description_file::DescriptionFile;
use crate::json::Object;
use crate::place::Spot;
use crate::safe::shown;
use crate::values;
use crate::words::Rule;
use planksling::{Cause, Description, Refusal, Session, Variable, Window};

/// How many columns the words take at most.
const WIDTH: usize = 80;

/// What is before the line that is shown.
const INDENT: &str = "    ";

/// The number of a record's field that tells the place of its element.
const PLACE: usize = 1;

/// The bytes of a journal's entry before the old ones.
const ENTRY_HEAD: usize = 8;

/// A refusal and all that is told of it.
pub struct Refused {
    rule: Rule,
    file: String,
    /// The place in the text, if it has one.
    place: Option<usize>,
    /// That place as it is shown; for a refusal that has none that of the variable's element, where there is a variable.
    spot: Option<Spot>,
    /// The position of the block, for a backup with a bad one.
    block: Option<usize>,
    variable: Option<Variable>,
    window: Option<Held>,
    /// What can be said beyond the words of the rule.
    notes: Vec<String>,
}

/// What a window has: its space, its first address and how many bytes.
#[derive(Clone, Copy)]
pub struct Held {
    pub space: u64,
    pub first: u64,
    pub length: u64,
}

impl Refused {
    /// A refusal of which nothing else is told.
    fn new(file: &str, rule: impl Into<Rule>) -> Refused {
        let (rule, file) = (rule.into(), file.to_string());
        Refused { rule, file, place: None, spot: None, block: None, variable: None, window: None, notes: vec![] }
    }

    /// A text that was refused.
    pub fn of_the_text(file: &DescriptionFile, refusal: Refusal) -> Refused {
        let content = file.content();
        let is_end = refusal.place == content.len();
        let spot = if is_end { Spot::end(content) } else { Spot::new(content, refusal.place) };
        let notes = text_note(file, refusal).into_iter().collect();
        Refused { place: Some(refusal.place), spot: Some(spot), notes, ..Refused::new(&file.name, refusal.cause) }
    }

    /// A number that no variable of the description has.
    pub fn of_the_number(file: &DescriptionFile, description: &Description, refusal: Refusal) -> Refused {
        let note = match description.variable_count() {
            0 => "The description has no variables.".to_string(),
            1 => "The description has one variable, 0.".to_string(),
            count => format!("The description has {count} variables, 0 to {}.", count - 1),
        };
        Refused { notes: vec![note], ..Refused::new(&file.name, refusal.cause) }
    }

    /// A variable that can't be read or written so.
    pub fn of_the_variable(
        file: &DescriptionFile,
        description: &Description,
        variable: Variable,
        window: Held,
        refusal: Refusal,
    ) -> Refused {
        let spot = element(description, &variable);
        let notes = match refusal.cause {
            Cause::OtherKind => vec![values::form(variable.kind).to_string()],
            Cause::OutsideWindow => vec![needed(&variable), window.told()],
            _ => vec![],
        };
        let own = format!("Variable {}: {}.", variable.number, lives(&variable));
        let notes = std::iter::once(own).chain(notes).collect();
        let (spot, variable, window) = (Some(spot), Some(variable), Some(window));
        Refused { spot, variable, window, notes, ..Refused::new(&file.name, refusal.cause) }
    }

    /// The same, where so many edits stand.
    pub fn beside_edits(mut self, standing: u64) -> Refused {
        if let Some(variable) = self.variable.filter(|_| self.rule.number == Cause::JournalFull.number()) {
            let bytes = ENTRY_HEAD + variable.size;
            self.notes.push(format!("Edits that stand: {standing}. This one needs {bytes} bytes of the journal."));
        }
        self
    }

    /// An edit that can't be taken back.
    pub fn of_the_journal(file: &DescriptionFile, session: &Session<'_>, refusal: Refusal) -> Refused {
        let notes = match (refusal.cause, session.latest()) {
            (Cause::BadEntry, None) => vec!["The latest entry doesn't lie in the journal.".to_string()],
            (Cause::BadEntry, Some(entry)) => {
                let (number, size) = (entry.number, entry.old.len());
                vec![format!("The latest entry is of variable {number}, with size {size}.")]
            }
            _ => vec![],
        };
        Refused { window: Some(Held::of(session.window())), notes, ..Refused::new(&file.name, refusal.cause) }
    }

    /// A window that can't be stored, or a backup that can't be read, with the bad block where the refusal is about one.
    pub fn of_a_backup(
        file: &str,
        cause: planksling_backup::Cause,
        block: Option<usize>,
        notes: Vec<String>,
    ) -> Refused {
        Refused { block, notes, ..Refused::new(file, cause) }
    }

    /// For a person, in lines.
    pub fn plain(&self) -> String {
        let Rule { number, rule, what, mend } = self.rule;
        let at = match (&self.spot, self.block) {
            (Some(spot), _) => format!(":{}:{}", spot.line, spot.column),
            (None, Some(block)) => format!(": block {block}"),
            (None, None) => String::new(),
        };
        let mut told = format!("{}{at}: refused {number}: {rule}\n", shown(&self.file));
        if let Some(spot) = &self.spot {
            told.push_str(&spot.lines(INDENT));
        }
        for paragraph in [what, mend].into_iter().chain(self.notes.iter().map(String::as_str)) {
            told.push_str(&wrapped(paragraph));
        }
        told
    }

    /// The same for a program, in one line.
    pub fn json(&self) -> String {
        let Rule { number, rule, what, mend } = self.rule;
        let mut object = Object::new().plain("refused", number).text("rule", rule).text("file", &self.file);
        if let Some(place) = self.place {
            object = object.plain("place", place);
        }
        if let Some(block) = self.block {
            object = object.plain("block", block);
        }
        if let Some(spot) = &self.spot {
            object = object.plain("line", spot.line).plain("column", spot.column);
            object = object.text("shown", &spot.shown).plain("mark", spot.before);
        }
        object = object.text("what", what).text("mend", mend).texts("notes", &self.notes);
        if let Some(variable) = &self.variable {
            object = object.object("variable", variable_object(variable));
        }
        if let Some(Held { space, first, length }) = self.window {
            let window = Object::new().plain("space", space).plain("first", first).plain("length", length);
            object = object.object("window", window);
        }
        object.finish()
    }
}

impl Held {
    pub fn of(window: &Window<Vec<u8>>) -> Held {
        Held { space: window.space, first: window.first, length: window.bytes.len() as u64 }
    }

    fn told(self) -> String {
        let Held { space, first, length } = self;
        match length {
            0 => "The window's file is empty.".to_string(),
            1 => format!("The window's file has one byte of space {space}, at {first}."),
            _ => {
                let last = first.saturating_add(length - 1);
                format!("The window's file has {length} bytes of space {space}, from {first} to {last}.")
            }
        }
    }
}

/// Where a variable lives, and what it is.
fn lives(variable: &Variable) -> String {
    let Variable { space, address, size, kind, .. } = variable;
    format!("{kind}, size {size}, address {address} (0x{address:X}) of space {space}")
}

/// The bytes that a window must have to hold a variable.
fn needed(variable: &Variable) -> String {
    let Variable { space, address, size, .. } = variable;
    match size {
        1 => format!("It needs the byte at {address} of space {space}."),
        _ => format!("It needs {size} bytes of space {space}, from {address} to {}.", address + *size as u64 - 1),
    }
}

/// A variable for a program.
pub fn variable_object(variable: &Variable) -> Object {
    Object::new()
        .plain("number", variable.number)
        .plain("space", variable.space)
        .plain("address", variable.address)
        .plain("size", variable.size)
        .text("kind", variable.kind.name())
}

/// The place of a variable's element in the text.
pub fn element(description: &Description, variable: &Variable) -> Spot {
    let record = description.table().record(variable.record).expect("a variable has a record");
    Spot::new(description.text().as_bytes(), record[PLACE] as usize)
}

/// What a text's bytes tell of its refusal.
fn text_note(file: &DescriptionFile, Refusal { cause, place }: Refusal) -> Option<String> {
    let content = file.content();
    match cause {
        Cause::NoEnd if file.longer => Some("The file has more than 65,536 bytes; no more were read.".to_string()),
        Cause::NoEnd => Some("The file has 65,536 bytes.".to_string()),
        Cause::BadCharacter => content.get(place..).and_then(character_note),
        _ if file.length == 0 => Some("The file is empty.".to_string()),
        _ if place == content.len() && place + 1 < file.length => {
            Some("A zero byte ends the text here; what stands behind it doesn't count.".to_string())
        }
        _ => None,
    }
}

/// Which character or byte these bytes begin with.
fn character_note(bytes: &[u8]) -> Option<String> {
    let chunk = bytes.utf8_chunks().next()?;
    Some(match (chunk.valid().chars().next(), bytes.first()?) {
        (Some('\r'), _) => "The byte here is 0x0D, a carriage return.".to_string(),
        (Some('\u{FEFF}'), _) => "The character here is U+FEFF, a byte-order mark.".to_string(),
        (Some(c), _) if !c.is_ascii() => format!("The character here is U+{:04X}.", u32::from(c)),
        (_, byte) => format!("The byte here is 0x{byte:02X}."),
    })
}

/// A paragraph in lines that are no longer than a terminal's.
fn wrapped(paragraph: &str) -> String {
    let mut lines = String::new();
    let mut length = 0;
    for word in paragraph.split_whitespace() {
        let word_length = word.chars().count();
        if 0 < length && WIDTH < length + 1 + word_length {
            lines.push('\n');
            length = 0;
        } else if 0 < length {
            lines.push(' ');
            length += 1;
        }
        lines.push_str(word);
        length += word_length;
    }
    if !lines.is_empty() {
        lines.push('\n');
    }
    lines
}
