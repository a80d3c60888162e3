//! Frames: the stream of cases as bytes, written and read. All numbers are big-endian.

use std::io::Read;

use crate::access::{Access, Value};
use crate::answer::Case;
use crate::leaves::Leaf;
use crate::session::{Operation, Session};

/// The limits of a frame.
pub const ROOM_LIMIT: u64 = 40_000;
/// Of a lent output of bytes.
pub const OUTPUT_LIMIT: u64 = 80_000;
pub const BACKUP_LIMIT: usize = 80_000;
pub const BYTES_LIMIT: usize = 70_000;
pub const NUMBERS_LIMIT: usize = 40_000;
pub const OPERATIONS_LIMIT: usize = 1_000;

fn put_bytes(frame: &mut Vec<u8>, bytes: &[u8]) {
    frame.extend((bytes.len() as u32).to_be_bytes());
    frame.extend_from_slice(bytes);
}

fn put_table(frame: &mut Vec<u8>, table: &[i64]) {
    frame.extend((table.len() as u32).to_be_bytes());
    for number in table {
        frame.extend(number.to_be_bytes());
    }
}

fn put_access(frame: &mut Vec<u8>, access: &Access) {
    put_bytes(frame, &access.text);
    put_table(frame, &access.table);
    for number in [access.n, access.space, access.first] {
        frame.extend(number.to_be_bytes());
    }
    put_bytes(frame, &access.window);
}

fn put_operation(frame: &mut Vec<u8>, operation: &Operation) {
    let Operation::Edit { n, value } = operation else { return frame.push(b'U') };
    frame.push(match value {
        Value::Integer { .. } => b'I',
        Value::Event(_) => b'E',
        Value::Text(_) => b'S',
    });
    frame.extend(n.to_be_bytes());
    match value {
        Value::Integer { negative, magnitude } => {
            frame.push(*negative as u8);
            frame.extend(magnitude.to_be_bytes());
        }
        Value::Event(value) => frame.extend(value.to_be_bytes()),
        Value::Text(value) => put_bytes(frame, value),
    }
}

fn put_session(frame: &mut Vec<u8>, session: &Session, operations: &[Operation]) {
    put_bytes(frame, &session.text);
    put_table(frame, &session.table);
    frame.extend(session.space.to_be_bytes());
    frame.extend(session.first.to_be_bytes());
    put_bytes(frame, &session.window);
    put_bytes(frame, &session.journal);
    frame.extend(session.standing.to_be_bytes());
    frame.extend((operations.len() as u32).to_be_bytes());
    for operation in operations {
        put_operation(frame, operation);
    }
}

fn put_leaf(frame: &mut Vec<u8>, leaf: &Leaf) {
    let (first, bytes) = match leaf {
        Leaf::Ending(bytes) => (b'Z', bytes),
        Leaf::Characters(bytes) => (b'U', bytes),
        Leaf::Number(bytes) => (b'N', bytes),
        Leaf::Formatting(bytes) => (b'F', bytes),
        Leaf::Name(bytes) => (b'M', bytes),
        Leaf::Piece { content, .. } => (b'C', content),
    };
    frame.push(first);
    put_bytes(frame, bytes);
    if let Leaf::Piece { place, .. } = leaf {
        frame.extend((*place as u64).to_be_bytes());
    }
}

/// The bytes of a case.
pub fn frame(case: &Case) -> Vec<u8> {
    let mut frame = Vec::new();
    match case {
        Case::Plan { room, text } => {
            frame.push(b'P');
            frame.extend(room.to_be_bytes());
            put_bytes(&mut frame, text);
        }
        Case::Locate { table, n } => {
            frame.push(b'L');
            put_table(&mut frame, table);
            frame.extend(n.to_be_bytes());
        }
        Case::WriteInteger { access, negative, magnitude } => {
            frame.push(b'I');
            put_access(&mut frame, access);
            frame.push(*negative as u8);
            frame.extend(magnitude.to_be_bytes());
        }
        Case::WriteEvent { access, value } => {
            frame.push(b'E');
            put_access(&mut frame, access);
            frame.extend(value.to_be_bytes());
        }
        Case::WriteText { access, value } => {
            frame.push(b'S');
            put_access(&mut frame, access);
            put_bytes(&mut frame, value);
        }
        Case::Read { access } => {
            frame.push(b'G');
            put_access(&mut frame, access);
        }
        Case::Session { session, operations } => {
            frame.push(b'J');
            put_session(&mut frame, session, operations);
        }
        Case::Store { space, window, room } => {
            frame.push(b'K');
            frame.extend(space.to_be_bytes());
            put_bytes(&mut frame, window);
            frame.extend(room.to_be_bytes());
        }
        Case::Restore { backup, room } => {
            frame.push(b'R');
            put_bytes(&mut frame, backup);
            frame.extend(room.to_be_bytes());
        }
        Case::Leaf(leaf) => put_leaf(&mut frame, leaf),
    }
    frame
}

/// Why no case could be read, and how many bytes of the stream stand before the fault.
#[derive(Debug, Clone, PartialEq, Eq)]
pub struct BadFrame {
    pub place: u64,
    pub why: &'static str,
}

/// Reads cases from a stream.
pub struct Frames<R> {
    source: R,
    place: u64,
}

impl<R: Read> Frames<R> {
    pub fn new(source: R) -> Self {
        Frames { source, place: 0 }
    }

    fn bad<T>(&self, why: &'static str) -> Result<T, BadFrame> {
        Err(BadFrame { place: self.place, why })
    }

    fn take(&mut self, count: usize) -> Result<Vec<u8>, BadFrame> {
        let mut bytes = vec![0; count];
        if self.source.read_exact(&mut bytes).is_err() {
            return self.bad("the frame is cut off");
        }
        self.place += count as u64;
        Ok(bytes)
    }

    fn number(&mut self) -> Result<u64, BadFrame> {
        let bytes = self.take(8)?;
        Ok(bytes.iter().fold(0, |number, byte| number << 8 | *byte as u64))
    }

    fn length(&mut self, limit: usize) -> Result<usize, BadFrame> {
        let place = self.place;
        let bytes = self.take(4)?;
        let length = bytes.iter().fold(0usize, |number, byte| number << 8 | *byte as usize);
        if length > limit {
            return Err(BadFrame { place, why: "a length beyond its limit" });
        }
        Ok(length)
    }

    fn bytes_up_to(&mut self, limit: usize) -> Result<Vec<u8>, BadFrame> {
        let length = self.length(limit)?;
        self.take(length)
    }

    fn bytes(&mut self) -> Result<Vec<u8>, BadFrame> {
        self.bytes_up_to(BYTES_LIMIT)
    }

    fn table(&mut self) -> Result<Vec<i64>, BadFrame> {
        let count = self.length(NUMBERS_LIMIT)?;
        let bytes = self.take(8 * count)?;
        let number = |part: &[u8]| part.iter().fold(0u64, |number, byte| number << 8 | *byte as u64) as i64;
        Ok(bytes.chunks(8).map(number).collect())
    }

    fn access(&mut self) -> Result<Access, BadFrame> {
        Ok(Access {
            text: self.bytes()?,
            table: self.table()?,
            n: self.number()?,
            space: self.number()?,
            first: self.number()?,
            window: self.bytes()?,
        })
    }

    fn room(&mut self, limit: u64) -> Result<u64, BadFrame> {
        let place = self.place;
        let room = self.number()?;
        if room > limit {
            return Err(BadFrame { place, why: "a room beyond its limit" });
        }
        Ok(room)
    }

    fn sign(&mut self) -> Result<bool, BadFrame> {
        let place = self.place;
        match self.take(1)?[0] {
            0 => Ok(false),
            1 => Ok(true),
            _ => Err(BadFrame { place, why: "a sign byte other than 0 and 1" }),
        }
    }

    fn operation(&mut self) -> Result<Operation, BadFrame> {
        let place = self.place;
        let sort = self.take(1)?[0];
        if sort == b'U' {
            return Ok(Operation::Undo);
        }
        if !b"IES".contains(&sort) {
            return Err(BadFrame { place, why: "an unknown operation" });
        }
        let n = self.number()?;
        let value = match sort {
            b'I' => Value::Integer { negative: self.sign()?, magnitude: self.number()? },
            b'E' => Value::Event(self.number()?),
            _ => Value::Text(self.bytes()?),
        };
        Ok(Operation::Edit { n, value })
    }

    fn session(&mut self) -> Result<Case, BadFrame> {
        let session = Session {
            text: self.bytes()?,
            table: self.table()?,
            space: self.number()?,
            first: self.number()?,
            window: self.bytes()?,
            journal: self.bytes()?,
            standing: self.number()?,
        };
        let count = self.length(OPERATIONS_LIMIT)?;
        let operations = (0..count).map(|_| self.operation()).collect::<Result<_, _>>()?;
        Ok(Case::Session { session, operations })
    }

    /// A content and a place in it.
    fn piece(&mut self) -> Result<Leaf, BadFrame> {
        let content = self.bytes()?;
        let at = self.place;
        let place = self.number()?;
        if place >= content.len() as u64 {
            return Err(BadFrame { place: at, why: "a place outside its content" });
        }
        Ok(Leaf::Piece { content, place: place as usize })
    }

    /// The first byte of the next frame, or none at the end of the stream.
    fn first(&mut self) -> Result<Option<u8>, BadFrame> {
        let mut byte = [0];
        loop {
            match self.source.read(&mut byte) {
                Ok(0) => return Ok(None),
                Ok(_) => return Ok(Some(byte[0])),
                Err(error) if error.kind() == std::io::ErrorKind::Interrupted => {}
                Err(_) => return self.bad("the stream can't be read"),
            }
        }
    }

    fn case(&mut self, first: u8) -> Result<Case, BadFrame> {
        match first {
            b'P' => Ok(Case::Plan { room: self.room(ROOM_LIMIT)?, text: self.bytes()? }),
            b'L' => Ok(Case::Locate { table: self.table()?, n: self.number()? }),
            b'I' => {
                Ok(Case::WriteInteger { access: self.access()?, negative: self.sign()?, magnitude: self.number()? })
            }
            b'E' => Ok(Case::WriteEvent { access: self.access()?, value: self.number()? }),
            b'S' => Ok(Case::WriteText { access: self.access()?, value: self.bytes()? }),
            b'G' => Ok(Case::Read { access: self.access()? }),
            b'J' => self.session(),
            b'K' => Ok(Case::Store { space: self.number()?, window: self.bytes()?, room: self.room(OUTPUT_LIMIT)? }),
            b'R' => Ok(Case::Restore { backup: self.bytes_up_to(BACKUP_LIMIT)?, room: self.room(OUTPUT_LIMIT)? }),
            b'Z' => Ok(Case::Leaf(Leaf::Ending(self.bytes()?))),
            b'U' => Ok(Case::Leaf(Leaf::Characters(self.bytes()?))),
            b'N' => Ok(Case::Leaf(Leaf::Number(self.bytes()?))),
            b'F' => Ok(Case::Leaf(Leaf::Formatting(self.bytes()?))),
            b'M' => Ok(Case::Leaf(Leaf::Name(self.bytes()?))),
            b'C' => Ok(Case::Leaf(self.piece()?)),
            _ => Err(BadFrame { place: self.place - 1, why: "an unknown first byte" }),
        }
    }
}

impl<R: Read> Iterator for Frames<R> {
    type Item = Result<Case, BadFrame>;

    fn next(&mut self) -> Option<Self::Item> {
        match self.first() {
            Ok(None) => None,
            Ok(Some(first)) => {
                self.place += 1;
                Some(self.case(first))
            }
            Err(bad) => Some(Err(bad)),
        }
    }
}
