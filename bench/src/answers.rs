//! Answers a stream of planning cases as docs/CASES.md has them, by one of the two planners.

use crate::planning::Answer;
use std::io::{self, BufReader, BufWriter, Read, Write};

fn take<const N: usize>(source: &mut impl Read) -> io::Result<[u8; N]> {
    let mut bytes = [0; N];
    source.read_exact(&mut bytes)?;
    Ok(bytes)
}

/// The room and the text of the next frame, or none at the end of the stream.
fn next(source: &mut impl Read) -> io::Result<Option<(usize, Vec<u8>)>> {
    let mut first = [0];
    if source.read(&mut first)? == 0 {
        return Ok(None);
    }
    if first != *b"P" {
        return Err(io::Error::other("a frame that isn't one of planning"));
    }
    let room = u64::from_be_bytes(take(source)?) as usize;
    let length = u32::from_be_bytes(take(source)?) as usize;
    let mut text = vec![0; length];
    source.read_exact(&mut text)?;
    Ok(Some((room, text)))
}

/// FNV-1a over the table.
fn hash(table: &[i64]) -> u64 {
    let bytes = table.iter().flat_map(|number| number.to_be_bytes());
    bytes.fold(14_695_981_039_346_656_037, |hash, byte| (hash ^ byte as u64).wrapping_mul(1_099_511_628_211))
}

fn line(answer: Answer, table: &[i64]) -> String {
    match answer {
        Ok(counts) => format!("planned {} {} {:016x}", counts.records, counts.variables, hash(table)),
        Err(refusal) => format!("refused {} {} {:016x}", refusal.number, refusal.place, hash(table)),
    }
}

/// A table whose number i is -7 - i.
pub fn lent(room: usize) -> Vec<i64> {
    (0..room as i64).map(|i| -7 - i).collect()
}

/// Prints a line for each case of standard input.
pub fn answer_all(plan: fn(&[u8], &mut [i64]) -> Answer) -> io::Result<()> {
    let mut source = BufReader::with_capacity(1 << 16, io::stdin().lock());
    let mut output = BufWriter::new(io::stdout().lock());
    while let Some((room, text)) = next(&mut source)? {
        let mut table = lent(room);
        let answer = plan(&text, &mut table);
        writeln!(output, "{}", line(answer, &table))?;
    }
    output.flush()
}
