//! A plain planner: a description's text in, its table or a refusal out, by document 01, R-1 and R-2. It is written to be timed beside the proved
//! one, shares nothing with it, and trusts Rust's own tests of indices. Stages 1 to 3 look over the bytes, and one pass over the pieces
//! does the rest: a fault of stages 4 to 7 ends it, the least fault against the table of elements and what the walk comes to are kept for its end.

mod markup;
mod rules;
mod text;
mod walk;

use markup::{Cutter, Piece};
use rules::{Bound, Bounds, Fields, Row};
use walk::{Stretch, NOTHING};

const DEEPEST: usize = 24;
const MOST_ELEMENTS: usize = 4096;
const MOST_VARIABLES: u64 = 1_000_000;

#[derive(Debug, Clone, Copy, PartialEq, Eq)]
pub struct Refusal {
    pub number: u8,
    pub place: usize,
}

#[derive(Debug, Clone, Copy, PartialEq, Eq)]
pub struct Counts {
    pub records: usize,
    pub variables: u64,
}

fn refused<T>(number: u8, place: usize) -> Result<T, Refusal> {
    Err(Refusal { number, place })
}

/// Plans a text: its records stand at the front of the table, or it is refused and the table is as it was.
pub fn plan(text: &[u8], table: &mut [i64]) -> Result<Counts, Refusal> {
    let content = text::content(text)?;
    text::characters(content)?;
    text::first_line(content)?;
    let mut pass = Pass::new(content);
    pass.read()?;
    let variables = pass.settle()?;
    let numbers = pass.records.as_flattened();
    if numbers.len() > table.len() {
        return refused(13, 0);
    }
    table[..numbers.len()].copy_from_slice(numbers);
    Ok(Counts { records: pass.records.len(), variables })
}

/// An element that is open: how far its children have come in its row, which of them it has, and the walk of its members.
struct Open<'a> {
    name: &'a [u8],
    row: Row,
    place: usize,
    inside: usize,
    /// Neither out of order nor one too many, and without attributes.
    sound: bool,
    last: u8,
    seen: u8,
    record: usize,
    walk: Option<Stretch>,
}

struct Pass<'a> {
    cutter: Cutter<'a>,
    open: Vec<Open<'a>>,
    elements: usize,
    root: usize,
    /// The least fault against the table of elements: its place and its number.
    least: (usize, u8),
    /// Of the int that is open.
    bounds: Bounds,
    records: Vec<[i64; 8]>,
    /// The first segment whose address leaves its limits.
    leaves: Option<usize>,
    variables: u64,
}

const NO_FAULT: (usize, u8) = (usize::MAX, 0);

/// How a number ranks at one place: 81 to 88, then 9 and 10.
fn rank(number: u8) -> u8 {
    if number > 80 {
        number - 80
    } else {
        number
    }
}

impl<'a> Pass<'a> {
    fn new(content: &'a [u8]) -> Self {
        Pass {
            cutter: Cutter::new(content),
            open: Vec::with_capacity(DEEPEST),
            elements: 0,
            root: 0,
            least: NO_FAULT,
            bounds: Bounds::default(),
            records: Vec::with_capacity(content.len() / 64),
            leaves: None,
            variables: 0,
        }
    }

    fn blame(&mut self, number: u8, place: usize) {
        let (least, other) = self.least;
        if (place, rank(number)) < (least, rank(other)) {
            self.least = (place, number);
        }
    }

    /// Stages 4 to 7, and what the later ones need.
    fn read(&mut self) -> Result<(), Refusal> {
        while let Some((place, piece)) = self.cutter.next() {
            match piece {
                Piece::Start { name, short, refers } => self.start(name, short, refers, place)?,
                Piece::End { name } => self.end(name, place)?,
                Piece::Remark => {}
                Piece::Reference => self.text(place)?,
                Piece::Run { solid: Some(solid) } => self.text(solid)?,
                Piece::Run { solid: None } => {}
                Piece::Malformed => return refused(4, place),
                Piece::Unsupported => return refused(5, place),
            }
        }
        if self.elements == 0 || !self.open.is_empty() {
            return refused(6, self.cutter.content.len());
        }
        Ok(())
    }

    /// The faults against the table of elements, 11 and 12.
    fn settle(&self) -> Result<u64, Refusal> {
        if self.least != NO_FAULT {
            return refused(self.least.1, self.least.0);
        }
        if let Some(place) = self.leaves {
            return refused(11, place);
        }
        if self.variables > MOST_VARIABLES {
            return refused(12, self.root);
        }
        Ok(self.variables)
    }

    /// A reference, or the first byte of a run that isn't blank.
    fn text(&mut self, place: usize) -> Result<(), Refusal> {
        let Some(parent) = self.open.last() else { return refused(6, place) };
        if parent.row.holds_children() {
            self.blame(88, place);
        }
        Ok(())
    }

    fn start(&mut self, name: &'a [u8], short: bool, refers: bool, place: usize) -> Result<(), Refusal> {
        if refers {
            return refused(5, place);
        }
        if self.open.is_empty() && self.elements > 0 {
            return refused(6, place);
        }
        if self.open.len() == DEEPEST || self.elements == MOST_ELEMENTS {
            return refused(7, place);
        }
        self.elements += 1;
        let (row, stands) = self.row(name, place);
        let record = self.records.len();
        let plain = self.cutter.attributes.is_empty();
        if row != Row::Unknown {
            self.enter(row, place);
        }
        let sound = stands && plain;
        let inside = self.cutter.at;
        self.open.push(Open { name, row, place, inside, sound, last: 0, seen: 0, record, walk: Some(NOTHING) });
        if short {
            self.leave(inside);
        }
        Ok(())
    }

    /// The row of a child that begins, and whether it stands in order and not too often.
    fn row(&mut self, name: &[u8], place: usize) -> (Row, bool) {
        let Some(parent) = self.open.last_mut() else {
            self.root = place;
            let row = rules::root(name);
            if row == Row::Unknown {
                self.blame(81, place);
            }
            return (row, true);
        };
        if parent.row == Row::Unknown {
            return (Row::Unknown, true);
        }
        let Some((entry, row)) = rules::child(parent.row, name) else {
            self.blame(81, place);
            return (Row::Unknown, true);
        };
        let last = parent.last;
        let stands = entry > last || (entry == last && row.may_repeat());
        parent.last = last.max(entry);
        parent.seen |= 1 << entry;
        if !stands {
            self.blame(if entry < last { 82 } else { 83 }, place);
        }
        (row, stands)
    }

    /// The attributes of an element that is known, and its record.
    fn enter(&mut self, row: Row, place: usize) {
        let fields = rules::fields(row, &self.cutter.attributes);
        if let Some(number) = fields.fault {
            self.blame(number, place);
        }
        if fields.wrong {
            self.blame_attribute(row);
        }
        if row == Row::Int {
            self.bounds = Bounds { size: fields.extra, ..Bounds::default() };
        }
        if let Some(kind) = row.kind() {
            let Fields { start, extra, copies, .. } = fields;
            self.records.push([kind, place as i64, start, extra, copies, 0, 0, 0]);
        }
    }

    /// The first attribute that is unknown or has a wrong text, at its name.
    #[cold]
    fn blame_attribute(&mut self, row: Row) {
        if let Some((number, name)) = rules::first_wrong(row, &self.cutter.attributes) {
            self.blame(number, self.cutter.place_of(name));
        }
    }

    fn end(&mut self, name: &[u8], place: usize) -> Result<(), Refusal> {
        match self.open.last() {
            Some(innermost) if innermost.name == name => {
                self.leave(place);
                Ok(())
            }
            _ => refused(6, place),
        }
    }

    /// Closes the innermost element, whose content ends before this place.
    fn leave(&mut self, end: usize) {
        let Some(element) = self.open.pop() else { return };
        match element.row {
            Row::Min => self.bounds.min = self.bound(&element, end),
            Row::Max => self.bounds.max = self.bound(&element, end),
            Row::Number => {
                self.bound(&element, end);
            }
            Row::Relation | Row::IntRelation if element.seen != rules::BOTH => self.blame(84, element.place),
            Row::Int => {
                if let Some(place) = self.bounds.fault(element.place) {
                    self.blame(10, place);
                }
                self.count(element);
            }
            Row::Segment | Row::Group | Row::Chars | Row::Eventid | Row::Float => self.count(element),
            _ => {}
        }
    }

    /// The number that is an element's whole content; its fault is told.
    fn bound(&mut self, element: &Open, end: usize) -> Bound {
        match rules::long_number(&self.cutter.content[element.inside..end]) {
            Ok(value) if element.sound => Bound::Is { value, place: element.place },
            Ok(_) => Bound::Faulty,
            Err(number) => {
                self.blame(number, element.place);
                Bound::Faulty
            }
        }
    }

    /// The last three numbers of an element's record, and its part in the walk.
    fn count(&mut self, element: Open) {
        let next = self.records.len() as i64;
        let record = &mut self.records[element.record];
        record[5] = next;
        let walk = element.walk.and_then(|members| walk::of_record(record, members));
        let told = walk.unwrap_or(NOTHING);
        record[6] = told.variables as i64;
        record[7] = told.change;
        if element.row == Row::Segment {
            self.variables = self.variables.saturating_add(told.variables);
            if walk.is_none() && self.leaves.is_none() {
                self.leaves = Some(element.place);
            }
        } else if let Some(parent) = self.open.last_mut() {
            parent.walk = parent.walk.and_then(|so_far| so_far.followed_by(walk?));
        }
    }
}
