//! A variable's line in a list, made for a million of them: from its end to its front, in room of its own.

use planksling::Variable;

/// Four numbers of 20 digits at most, the longest kind and what stands between them, in JSON too.
const ROOM: usize = 160;

/// `00` to `99`.
const PAIRS: [[u8; 2]; 100] = {
    let mut pairs = [[0; 2]; 100];
    let mut n = 0;
    while n < 100 {
        pairs[n] = [b'0' + n as u8 / 10, b'0' + n as u8 % 10];
        n += 1;
    }
    pairs
};

/// A line that is being made. What is put stands in front of what was put before.
struct Line {
    bytes: [u8; ROOM],
    begin: usize,
}

impl Line {
    #[inline]
    fn put(&mut self, bytes: &[u8]) {
        let end = self.begin;
        self.begin -= bytes.len();
        self.bytes[self.begin..end].copy_from_slice(bytes);
    }

    /// Puts a number in decimal, two digits at a time.
    #[inline]
    fn put_number(&mut self, mut number: u64) {
        while 100 <= number {
            self.put(&PAIRS[(number % 100) as usize]);
            number /= 100;
        }
        let pair = &PAIRS[number as usize];
        self.put(if 10 <= number { pair } else { &pair[1..] });
    }
}

/// Puts behind these bytes the line that the program `list` prints, which is also the variable's `Display`.
#[inline]
pub fn put_plain(bytes: &mut Vec<u8>, variable: &Variable) {
    put(bytes, variable, ["", " ", " ", " ", " ", "\n"]);
}

/// Puts behind these bytes the variable as an object of JSON.
pub fn put_json(bytes: &mut Vec<u8>, variable: &Variable) {
    let between = ["{\"number\":", ",\"space\":", ",\"address\":", ",\"size\":", ",\"kind\":\"", "\"}\n"];
    put(bytes, variable, between);
}

/// Puts number, space, address, size and kind, with these texts before, between and behind them.
#[inline(always)]
fn put(bytes: &mut Vec<u8>, variable: &Variable, [front, space, address, size, kind, end]: [&str; 6]) {
    let mut line = Line { bytes: [0; ROOM], begin: ROOM };
    line.put(end.as_bytes());
    line.put(variable.kind.name().as_bytes());
    line.put(kind.as_bytes());
    line.put_number(variable.size as u64);
    line.put(size.as_bytes());
    line.put_number(variable.address);
    line.put(address.as_bytes());
    line.put_number(variable.space);
    line.put(space.as_bytes());
    line.put_number(variable.number);
    line.put(front.as_bytes());
    bytes.extend_from_slice(&line.bytes[line.begin..]);
}
