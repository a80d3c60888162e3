//! Which accepted texts need more rows than their class has, so that they are planned twice.

use crate::plan::planned;

/// A text of up to so many bytes is planned into so many rows first.
#[derive(Debug, Clone, Copy)]
pub struct Class {
    pub bytes: usize,
    pub rows: u64,
}

/// The classes that may be too small; the last has rows for every text.
pub const CLASSES: [Class; 2] = [Class { bytes: 4_096, rows: 128 }, Class { bytes: 32_768, rows: 1_024 }];

const ROOMS: [&str; 3] = ["fits", "one record short", "of length 0"];

fn held(records: &str, bytes: usize, room: &str) -> String {
    format!("{records} records in up to {bytes} bytes, table {room}")
}

fn counted(class: &Class) -> [String; 3] {
    [class.rows.to_string(), (class.rows + 1).to_string(), format!("more than {}", class.rows + 1)]
}

fn edges(class: &Class) -> [String; 2] {
    [class.bytes, class.bytes + 1].map(|bytes| format!("more than {} records in exactly {bytes} bytes", class.rows))
}

/// All that is counted here.
pub fn labels() -> Vec<String> {
    let mut labels = Vec::new();
    for class in &CLASSES {
        for records in counted(class) {
            labels.extend(ROOMS.map(|room| held(&records, class.bytes, room)));
        }
        labels.extend(edges(class));
    }
    labels
}

fn room_for(room: u64, records: u64) -> Option<&'static str> {
    let needed = 8 * records;
    if room >= needed {
        return Some(ROOMS[0]);
    }
    if room == needed - 8 {
        return Some(ROOMS[1]);
    }
    (room == 0).then_some(ROOMS[2])
}

/// What a case shows of this.
pub fn met(room: u64, text: &[u8]) -> Vec<String> {
    let Ok(planned) = planned(text) else { return Vec::new() };
    let records = planned.records();
    let mut met = Vec::new();
    for class in CLASSES.iter().filter(|class| records > class.rows) {
        let bytes = [class.bytes, class.bytes + 1];
        let edge = bytes.iter().position(|&bytes| text.len() == bytes);
        met.extend(edge.map(|edge| edges(class)[edge].clone()));
    }
    let Some(class) = CLASSES.iter().find(|class| text.len() <= class.bytes) else { return met };
    let Some(more) = records.checked_sub(class.rows) else { return met };
    let counted = &counted(class)[more.min(2) as usize];
    met.extend(room_for(room, records).map(|room| held(counted, class.bytes, room)));
    met
}
