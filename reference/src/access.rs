//! Writing and reading a variable in a window, in the order of causes of document 01.

use crate::description::{Data, Detail, IntDetail, Kind, Segment};
use crate::plan::{planned, Planned};
use crate::refusal::{unplaced, Refusal};
use crate::table::variable;
use crate::text::is_utf8;
use crate::walk::Met;

/// What every access takes: the text, the exact records, n and a window.
#[derive(Debug, Clone, PartialEq, Eq)]
pub struct Access {
    pub text: Vec<u8>,
    pub table: Vec<i64>,
    pub n: u64,
    pub space: u64,
    pub first: u64,
    pub window: Vec<u8>,
}

/// A value to be written.
#[derive(Debug, Clone, PartialEq, Eq)]
pub enum Value {
    Integer { negative: bool, magnitude: u64 },
    Event(u64),
    Text(Vec<u8>),
}

/// A value that was read, and whether writing it now would be accepted.
#[derive(Debug, Clone, PartialEq, Eq)]
pub enum ReadValue {
    Integer { value: i128, accepted: bool },
    Event { value: u64, accepted: bool },
    Text { bytes: Vec<u8>, accepted: bool },
}

/// A variable of the text: where it stands and its details.
pub struct Variable {
    pub met: Met,
    pub detail: Detail,
}

fn find_data(members: &[Data], record: usize) -> Option<&Data> {
    members.iter().find_map(|data| if data.record == record { Some(data) } else { find_data(&data.members, record) })
}

/// The details of the variable with this record.
pub fn detail_of(segments: &[Segment], record: usize) -> Detail {
    let found = segments.iter().find_map(|segment| find_data(&segment.members, record));
    found.map_or(Detail::None, |data| data.detail.clone())
}

/// Causes 1 to 12 and 20: the plan of the text, if this table is exactly that.
pub fn planned_as(text: &[u8], table: &[i64]) -> Result<Planned, Refusal> {
    let planned = planned(text)?;
    if planned.numbers != table {
        return Err(unplaced(20));
    }
    Ok(planned)
}

/// Causes 1 to 12, 20 and 21.
fn chosen(access: &Access) -> Result<Variable, Refusal> {
    let planned = planned_as(&access.text, &access.table)?;
    let met = variable(&planned.segments, access.n).ok_or(unplaced(21))?;
    Ok(Variable { met, detail: detail_of(&planned.segments, met.record) })
}

/// Cause 26, or the places of the variable's bytes in the window.
pub fn part(access: &Access, met: &Met) -> Result<std::ops::Range<usize>, Refusal> {
    let first = access.first as i128;
    let (start, end) = (met.address - first, met.address + met.size as i128 - first);
    let inside = start >= 0 && end <= access.window.len() as i128;
    if access.space as i128 != met.space as i128 || !inside {
        return Err(unplaced(26));
    }
    Ok(start as usize..end as usize)
}

/// The number that a sign and a magnitude mean; minus zero is zero.
pub fn integer(negative: bool, magnitude: u64) -> i128 {
    if negative {
        -(magnitude as i128)
    } else {
        magnitude as i128
    }
}

fn within(int: &IntDetail, value: i128) -> bool {
    int.min <= value && value <= int.max
}

fn admitted<T: PartialEq>(map: &Option<Vec<T>>, value: &T) -> bool {
    map.as_ref().is_none_or(|properties| properties.contains(value))
}

/// Big-endian bytes over the whole size, negative numbers in two's complement.
fn stored_integer(value: i128, size: i64) -> Vec<u8> {
    value.to_be_bytes()[16 - size as usize..].to_vec()
}

fn stored_text(text: &[u8], size: i64) -> Vec<u8> {
    let mut bytes = text.to_vec();
    bytes.resize(size as usize, 0);
    bytes
}

/// No zero byte, UTF-8, and not longer than size - 1.
fn is_storable_text(text: &[u8], size: i64) -> bool {
    !text.contains(&0) && is_utf8(text) && (text.len() as i64) < size
}

/// Causes 27, 22, 23, 25 and 24, or the bytes to be stored.
fn stored(variable: &Variable, value: &Value) -> Result<Vec<u8>, Refusal> {
    let size = variable.met.size;
    if variable.met.kind == Kind::Float || variable.detail == (Detail::Eventid { map: true }) {
        return Err(unplaced(27));
    }
    match (&variable.detail, value) {
        (Detail::Int(int), Value::Integer { negative, magnitude }) => {
            let value = integer(*negative, *magnitude);
            if !within(int, value) {
                return Err(unplaced(23));
            }
            if !admitted(&int.map, &value) {
                return Err(unplaced(24));
            }
            Ok(stored_integer(value, size))
        }
        (Detail::Eventid { .. }, Value::Event(value)) => Ok(value.to_be_bytes().to_vec()),
        (Detail::String { map }, Value::Text(text)) => {
            if !is_storable_text(text, size) {
                return Err(unplaced(25));
            }
            if !admitted(map, text) {
                return Err(unplaced(24));
            }
            Ok(stored_text(text, size))
        }
        _ => Err(unplaced(22)),
    }
}

/// Writes a value; the answer is the window afterwards. A refusal leaves it as it was.
pub fn write(access: &Access, value: &Value) -> Result<Vec<u8>, Refusal> {
    write_to(&chosen(access)?, access, value)
}

/// Writes a value to a variable that has been chosen: of the access the window alone is looked at.
pub fn write_to(variable: &Variable, access: &Access, value: &Value) -> Result<Vec<u8>, Refusal> {
    let bytes = stored(variable, value)?;
    let part = part(access, &variable.met)?;
    let mut window = access.window.clone();
    window[part].copy_from_slice(&bytes);
    Ok(window)
}

fn read_integer(int: &IntDetail, bytes: &[u8]) -> ReadValue {
    let unsigned = bytes.iter().fold(0i128, |value, byte| value * 256 + *byte as i128);
    let half = 1i128 << (8 * bytes.len() - 1);
    let value = if int.signed && unsigned >= half { unsigned - 2 * half } else { unsigned };
    ReadValue::Integer { value, accepted: within(int, value) && admitted(&int.map, &value) }
}

fn read_text(map: &Option<Vec<Vec<u8>>>, bytes: &[u8]) -> Result<ReadValue, Refusal> {
    let end = bytes.iter().position(|byte| *byte == 0).ok_or(unplaced(28))?;
    let bytes = bytes[..end].to_vec();
    if !is_utf8(&bytes) {
        return Err(unplaced(28));
    }
    let accepted = admitted(map, &bytes);
    Ok(ReadValue::Text { bytes, accepted })
}

fn read_event(map: bool, bytes: &[u8]) -> ReadValue {
    let value = bytes.iter().fold(0u64, |value, byte| value << 8 | *byte as u64);
    ReadValue::Event { value, accepted: !map }
}

/// Reads a variable out of the window.
pub fn read(access: &Access) -> Result<ReadValue, Refusal> {
    read_from(&chosen(access)?, access)
}

/// Reads a variable that has been chosen: of the access the window alone is looked at.
pub fn read_from(variable: &Variable, access: &Access) -> Result<ReadValue, Refusal> {
    if variable.met.kind == Kind::Float {
        return Err(unplaced(27));
    }
    let bytes = &access.window[part(access, &variable.met)?];
    match &variable.detail {
        Detail::Int(int) => Ok(read_integer(int, bytes)),
        Detail::String { map } => read_text(map, bytes),
        Detail::Eventid { map } => Ok(read_event(*map, bytes)),
        Detail::None => Err(unplaced(27)),
    }
}
