//! The check of characters and the search for the content's end, beside a check that goes byte by byte, and `core::str::from_utf8` for orientation.

use std::hint::black_box;
use std::time::Instant;

extern "C" {
    fn timed_end(text: *const u8, length: usize) -> usize;
    fn timed_characters(content: *const u8, length: usize) -> usize;
    fn timed_utf8(bytes: *const u8, length: usize) -> bool;
    fn timed_content(text: *const u8, length: usize) -> usize;
}

const LENGTH: usize = 60_000;

/// The number and the width of the character at a place, by RFC 3629.
fn character(bytes: &[u8], at: usize) -> Option<(u32, usize)> {
    let lead = bytes[at];
    let (width, bits, least) = match lead {
        0..=0x7F => return Some((lead as u32, 1)),
        0xC0..=0xDF => (2, lead & 0x1F, 0x80),
        0xE0..=0xEF => (3, lead & 0x0F, 0x800),
        0xF0..=0xF7 => (4, lead & 0x07, 0x1_0000),
        _ => return None,
    };
    let mut code = bits as u32;
    for k in 1..width {
        let next = *bytes.get(at + k)?;
        if next & 0xC0 != 0x80 {
            return None;
        }
        code = code << 6 | (next & 0x3F) as u32;
    }
    let good = code >= least && code <= 0x10_FFFF && !(0xD800..0xE000).contains(&code);
    good.then_some((code, width))
}

fn is_allowed(code: u32) -> bool {
    code >= 0x20 && code != 0xFFFE && code != 0xFFFF || code == 9 || code == 10
}

/// The first place where no allowed character stands, or the length: one character after another.
#[inline(never)]
fn plain_characters(content: &[u8]) -> usize {
    if content.starts_with(b"\xEF\xBB\xBF") {
        return 0;
    }
    let mut at = 0;
    while at < content.len() {
        match character(content, at) {
            Some((code, width)) if is_allowed(code) => at += width,
            _ => return at,
        }
    }
    at
}

/// The first zero at 65,535 or before, or where a reader knows that there is none.
#[inline(never)]
fn plain_end(text: &[u8]) -> usize {
    let most = text.len().min(65_536);
    text[..most].iter().position(|&byte| byte == 0).unwrap_or(most)
}

fn plain_content(text: &[u8]) -> usize {
    plain_characters(&text[..plain_end(text)])
}

#[inline(never)]
fn core_check(bytes: &[u8]) -> usize {
    std::str::from_utf8(bytes).map_or_else(|error| error.valid_up_to(), |text| text.len())
}

fn proved_characters(content: &[u8]) -> usize {
    unsafe { timed_characters(content.as_ptr(), content.len()) }
}

fn proved_end(text: &[u8]) -> usize {
    unsafe { timed_end(text.as_ptr(), text.len()) }
}

fn proved_content(text: &[u8]) -> usize {
    unsafe { timed_content(text.as_ptr(), text.len()) }
}

fn proved_utf8(bytes: &[u8]) -> usize {
    unsafe { timed_utf8(bytes.as_ptr(), bytes.len()) as usize }
}

/// The least time of one call in nanoseconds, over rounds of so many.
fn time(check: fn(&[u8]) -> usize, bytes: &[u8], calls: usize) -> f64 {
    let begun = Instant::now();
    for _ in 0..calls {
        black_box(check(black_box(bytes)));
    }
    begun.elapsed().as_secs_f64() * 1e9 / calls as f64
}

/// The least times of all of these, taken in turns.
fn in_turns(checks: &[fn(&[u8]) -> usize], bytes: &[u8], calls: usize) -> Vec<f64> {
    let mut least = vec![f64::MAX; checks.len()];
    for _ in 0..300 {
        for (least, check) in least.iter_mut().zip(checks) {
            *least = least.min(time(*check, bytes, calls));
        }
    }
    least
}

fn repeated(part: &str) -> Vec<u8> {
    let mut text = part.repeat(LENGTH / part.len() + 1).into_bytes();
    text.truncate(LENGTH / part.len() * part.len());
    text
}

/// Plain letters, with this byte at a place.
fn with_fault(place: usize, fault: u8) -> Vec<u8> {
    let mut text = repeated("the quick brown fox jumps over the lazy dog, and again.\n");
    text[place] = fault;
    text
}

/// Whether the check of characters was asked for; if so, it is timed.
pub fn asked() -> bool {
    let asked = std::env::args().nth(1).is_some_and(|word| word == "characters");
    if asked {
        run();
    }
    asked
}

fn run() {
    let ascii = repeated("the quick brown fox jumps over the lazy dog, and again.\n");
    let last = ascii.len() - 1;
    let texts = [
        ("all ASCII", ascii.clone()),
        ("a two-byte letter every 40 bytes", repeated("thirty-eight bytes of ASCII, then one ä")),
        ("all three-byte characters", repeated("€")),
        ("a fault at the start", with_fault(0, 1)),
        ("a fault in the middle", with_fault(ascii.len() / 2, b'\r')),
        ("a fault at the end", with_fault(last, 0x80)),
    ];
    for (name, text) in &texts {
        assert_eq!(proved_characters(text), plain_characters(text), "{name}");
        assert_eq!(proved_utf8(text) == 1, std::str::from_utf8(text).is_ok(), "{name}");
        let calls = if plain_characters(text) < 1000 { 1000 } else { 1 };
        let times = in_turns(&[proved_characters, plain_characters, core_check, proved_utf8], text, calls);
        println!(
            "{name}: proved {:.0} ns, byte by byte {:.0} ns, ratio {:.2}; from_utf8 {:.0} ns; UTF-8 alone, proved {:.0} ns",
            times[0],
            times[1],
            times[0] / times[1],
            times[2],
            times[3]
        );
        let closed = [text.as_slice(), &[0]].concat();
        assert_eq!(proved_end(&closed), plain_end(&closed), "{name}");
        assert_eq!(proved_content(&closed), plain_content(&closed), "{name}");
        let times = in_turns(&[proved_end, plain_end, proved_content, plain_content], &closed, 1);
        println!(
            "  its end: proved {:.0} ns, byte by byte {:.0} ns, ratio {:.2}; end and characters: proved {:.0} ns, byte by byte {:.0} ns, ratio {:.2}",
            times[0],
            times[1],
            times[0] / times[1],
            times[2],
            times[3],
            times[2] / times[3]
        );
    }
}
