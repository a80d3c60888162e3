//! Backups in blocks, by request R-9: each open point as it was decided, the promise on single bytes, the lines, the frames, and the stream.

use std::collections::BTreeSet;
use std::io::Write;
use std::process::{Command, Stdio};

use reference::answer::lent_output;
use reference::backup::{check, faults, is_storable, restore, store, sum, Due, Fault, BLOCK, CHECK, HEAD, PAYLOAD};
use reference::cases::backups::{block_of, good, recheck, set_check, steer};
use reference::cases::reached::{backups, Reached};
use reference::cases::stats::Shares;
use reference::cases::{boundaries, Sort, Stream};
use reference::{answer, frame, line, Answer, Case, Frames};

/// A window of bytes none of which is zero.
fn window(length: usize) -> Vec<u8> {
    (0..length).map(|place| 1 + (place % 250) as u8).collect()
}

/// What storing says, as one word; where it is refused, the output is as it was lent.
fn storing(space: u64, window: &[u8], room: usize) -> String {
    match answer(&Case::Store { space, window: window.to_vec(), room: room as u64 }) {
        Answer::Stored { length, output } => {
            assert_eq!(output[length as usize..], lent_output(room as u64)[length as usize..]);
            format!("stored {length}")
        }
        Answer::BackupRefused { refusal, output } => {
            assert_eq!(output, lent_output(room as u64));
            format!("{}.{}", refusal.number, refusal.place)
        }
        _ => panic!(),
    }
}

/// The same for reading back.
fn reading(backup: &[u8], room: usize) -> String {
    match answer(&Case::Restore { backup: backup.to_vec(), room: room as u64 }) {
        Answer::Restored { length, space, output } => {
            assert_eq!(output[length as usize..], lent_output(room as u64)[length as usize..]);
            format!("restored {length} {space}")
        }
        Answer::BackupRefused { refusal, output } => {
            assert_eq!(output, lent_output(room as u64));
            format!("{}.{}", refusal.number, refusal.place)
        }
        _ => panic!(),
    }
}

/// Reading back with all room.
fn told(backup: &[u8]) -> String {
    reading(backup, 70_000)
}

/// The backup with these bytes from a place of a block on, its check made right.
fn with(backup: &[u8], position: usize, place: usize, bytes: &[u8]) -> Vec<u8> {
    let mut backup = backup.to_vec();
    let block = block_of(&mut backup, position);
    block[place..place + bytes.len()].copy_from_slice(bytes);
    recheck(block);
    backup
}

/// The backup with the check of a block wrong.
fn unchecked(backup: &[u8], position: usize) -> Vec<u8> {
    let mut backup = backup.to_vec();
    block_of(&mut backup, position)[CHECK + 1] ^= 1;
    backup
}

/// The blocks of a backup in this order.
fn ordered(backup: &[u8], order: &[usize]) -> Vec<u8> {
    order.iter().flat_map(|position| backup[BLOCK * position..BLOCK * (position + 1)].to_vec()).collect()
}

#[test]
fn point_1_how_many_blocks() {
    let lengths = [(1, 1), (501, 1), (502, 1), (503, 2), (1_003, 2), (1_004, 2), (1_005, 3), (1_506, 3), (70_000, 140)];
    for (length, count) in lengths {
        assert_eq!(storing(3, &window(length), 80_000), format!("stored {}", 512 * count));
        let backup = good(3, &window(length));
        for (position, block) in backup.chunks(512).enumerate() {
            let last = position + 1 == count;
            let payload = if last { length - 502 * (count - 1) } else { 502 };
            assert_eq!(block[..4], [0, 0, 0, position as u8]);
            assert_eq!(block[4..8], [(payload / 256) as u8, (payload % 256) as u8, 3, last as u8]);
            assert_eq!(block[8..8 + payload], window(length)[502 * position..502 * position + payload]);
            assert!(block[8 + payload..510].iter().all(|byte| *byte == 0));
        }
    }
    // A full last block has no empty one behind it.
    let full = good(3, &window(502));
    let mut empty = [0, 0, 0, 1, 0, 0, 3, 1].to_vec();
    empty.resize(512, 0);
    recheck(&mut empty);
    assert_eq!(told(&[with(&full, 0, 7, &[0]), empty].concat()), "44.1");
}

/// A window of so many bytes whose blocks all have this check.
fn steered(length: usize, wanted: u16) -> Vec<u8> {
    let mut bytes = window(length);
    for position in 0..length.div_ceil(502) {
        steer(9, &mut bytes, position, 1, wanted);
    }
    bytes
}

#[test]
fn point_2_the_check() {
    // Words 0000 0000 0001 0501 0100.
    assert_eq!(good(5, &[1])[CHECK..], [0x06, 0x02]);
    // Words 0000 0000 0002 0001 FFFC: the sum is 65,535.
    assert_eq!((sum(&good(0, &[0xFF, 0xFC])), check(&good(0, &[0xFF, 0xFC]))), (65_535, 0));
    assert_eq!((sum(&good(0, &[0xFF, 0xFB])), check(&good(0, &[0xFF, 0xFB]))), (65_534, 65_534));
    assert_eq!((sum(&good(0, &[0xFF, 0xFD])), check(&good(0, &[0xFF, 0xFD]))), (65_536, 1));
    for length in [2, 501, 502, 700, 1_004] {
        let bytes = steered(length, 0);
        let mut backup = good(9, &bytes);
        assert!(backup.chunks(512).all(|block| sum(block) % 65_535 == 0 && block[CHECK..] == [0, 0]));
        assert_eq!(told(&backup), format!("restored {length} 9"));
        let last = backup.len() / 512 - 1;
        set_check(block_of(&mut backup, last), 0xFFFF);
        assert_eq!(told(&backup), format!("43.{last}"));
        assert!(good(9, &steered(length, 65_534)).chunks(512).all(|block| block[CHECK..] == [0xFF, 0xFE]));
    }
    // Exactly one check is right.
    for bytes in [steered(300, 0), steered(300, 65_534), window(300)] {
        let mut backup = good(9, &bytes);
        let right = check(&backup);
        for other in 0..=u16::MAX {
            set_check(&mut backup, other);
            assert_eq!(restore(&backup, &mut [0; 300]).is_ok(), other == right);
        }
    }
}

/// "Any change of a single byte in a block must be noticed": every other value at every place of small backups.
#[test]
fn point_3_every_single_byte() {
    let windows =
        [vec![1], vec![0; 2], vec![0xFF; 502], window(100), steered(502, 0), steered(503, 65_534), window(604)];
    for bytes in windows {
        let mut backup = good(9, &bytes);
        let mut lent = vec![0x55; bytes.len()];
        for place in 0..backup.len() {
            let right = backup[place];
            for change in 1..=255 {
                backup[place] = right ^ change;
                let refusal = restore(&backup, &mut lent).unwrap_err();
                assert_eq!((refusal.number, refusal.place), (43, (place / 512) as u64), "{place} {change}");
            }
            backup[place] = right;
        }
        assert!(lent.iter().all(|byte| *byte == 0x55));
        assert_eq!(restore(&backup, &mut lent), Ok((bytes.len(), 9)));
        assert_eq!(lent, bytes);
    }
}

/// What needn't be noticed: FFFF for 0000 in a word, and two words exchanged.
#[test]
fn point_3_two_bytes() {
    let zeros = good(9, &[0; 20]);
    let mut other = zeros.clone();
    other[10..12].fill(0xFF);
    assert_eq!((check(&other), told(&other)), (check(&zeros), "restored 20 9".to_string()));
    let mut exchanged = good(9, &window(20));
    exchanged.swap(8, 10);
    exchanged.swap(9, 11);
    assert_eq!(told(&exchanged), "restored 20 9");
}

#[test]
fn point_4_places() {
    let backup = good(1, &window(502 * 5 + 9));
    for position in 0..6 {
        assert_eq!(told(&unchecked(&backup, position)), format!("43.{position}"));
        assert_eq!(told(&with(&backup, position, 7, &[2])), format!("44.{position}"));
    }
    // By position, whatever the number says.
    assert_eq!(told(&ordered(&backup, &[0, 1, 4, 3, 2, 5])), "44.2");
    assert_eq!(storing(256, &[1], 0), "40.0");
    assert_eq!(storing(1, &window(9_000), 600), "41.0");
    assert_eq!(told(&backup[..1_100]), "42.0");
    assert_eq!(reading(&backup, 600), "41.0");
}

#[test]
fn point_5_the_order() {
    let backup = good(1, &window(1_204));
    let broken = with(&backup, 0, 3, &[9]);
    assert_eq!(told(&unchecked(&broken, 1)), "44.0");
    assert_eq!(told(&with(&unchecked(&backup, 0), 1, 3, &[9])), "43.0");
    assert_eq!(told(&unchecked(&broken, 0)), "43.0");
    let late = with(&backup, 1, 3, &[9]);
    assert_eq!(told(&unchecked(&late, 2)), "44.1");
    assert_eq!(told(&unchecked(&late, 1)), "43.1");
    // 42 before all, 41 behind all.
    for bad in [unchecked(&backup, 0), broken, late, unchecked(&backup, 2)] {
        assert_eq!(reading(&bad[..1_535], 0), "42.0");
        for room in [0, 1_203, 1_204] {
            assert_ne!(reading(&bad, room), "41.0");
        }
    }
    assert_eq!(reading(&backup, 1_203), "41.0");
}

#[test]
fn point_6_the_last_block() {
    let backup = good(1, &window(1_204));
    for (order, wanted) in [
        (&[0, 1][..], "44.1"),
        (&[0], "44.0"),
        (&[0, 1, 2, 2], "44.2"),
        (&[0, 1, 2, 0, 1, 2], "44.2"),
        (&[0, 1, 2], "restored 1204 1"),
    ] {
        assert_eq!(told(&ordered(&backup, order)), wanted);
    }
    // Flag 1 before foreign bytes.
    assert_eq!(told(&[backup.clone(), vec![0xEE; 512]].concat()), "44.2");
    assert_eq!(told(&[good(1, &window(502)), vec![0xEE; 512]].concat()), "44.0");
    // Cut off and the flag set: a good backup of a shorter window.
    assert_eq!(told(&with(&ordered(&backup, &[0, 1]), 1, 7, &[1])), "restored 1004 1");
}

#[test]
fn point_7_each_rule() {
    let backup = good(253, &window(1_104));
    let refused = |position: usize, place: usize, bytes: &[u8], at: usize| {
        assert_eq!(told(&with(&backup, position, place, bytes)), format!("44.{at}"), "{position} {place} {bytes:?}");
    };
    for position in 0..3 {
        let number = position as u8;
        let numbers = [[0, 0, 0, number + 1], [0, 0, 1, number], [0, 1, 0, number], [1, 0, 0, number], [0xFF; 4]];
        numbers.iter().for_each(|bytes| refused(position, 0, bytes, position));
        // Another space in block 0 makes block 1 the first that isn't alike.
        [0, 252, 255].iter().for_each(|space| refused(position, 6, &[*space], position.max(1)));
        for length in [0u16, 1, 99, 503, 504, 512, 758, 65_535] {
            refused(position, 4, &length.to_be_bytes(), position);
        }
        [2, 3, 128, 129, 255, 1 - (position == 2) as u8]
            .iter()
            .for_each(|flag| refused(position, 7, &[*flag], position));
    }
    (108..510).for_each(|place| refused(2, place, &[1], 2));
    // Nothing but the length is wrong: a payload that isn't full, with zeros behind it.
    for (position, length, wanted) in [(0, 501, "44.0"), (1, 1, "44.1"), (2, 0, "44.2"), (2, 1, "restored 1005 253")] {
        let zeros = with(&backup, position, HEAD + length, &vec![0; PAYLOAD - length]);
        assert_eq!(told(&with(&zeros, position, 4, &(length as u16).to_be_bytes())), wanted);
    }
    // A longer payload that takes zeros of the padding in.
    for length in [101u16, 501, 502] {
        let longer = with(&backup, 2, 4, &length.to_be_bytes());
        assert_eq!(told(&longer), format!("restored {} 253", 1_004 + length));
    }
    for space in 0..=255 {
        assert_eq!(told(&with(&good(7, &[1, 2]), 0, 6, &[space])), format!("restored 2 {space}"));
    }
}

/// The fault of each rule alone.
#[test]
fn point_7_each_fault() {
    let due = Due { position: 2, last: true, space: 7 };
    let block = ordered(&good(7, &window(1_104)), &[2]);
    assert_eq!(faults(&block, due), []);
    assert_eq!(faults(&unchecked(&block, 0), due), [Fault::Check]);
    assert_eq!(faults(&block, Due { position: 3, ..due }), [Fault::Number]);
    assert_eq!(faults(&block, Due { space: 8, ..due }), [Fault::Space]);
    assert_eq!(faults(&block, Due { last: false, ..due }), [Fault::Length, Fault::Flag]);
    assert_eq!(faults(&with(&block, 0, 4, &[1, 247]), due), [Fault::Length]);
    assert_eq!(faults(&with(&block, 0, 7, &[0]), due), [Fault::Flag]);
    assert_eq!(faults(&with(&block, 0, 400, &[1]), due), [Fault::Padding]);
    assert_eq!(faults(&with(&block, 0, 4, &[0, 99]), due), [Fault::Padding]);
    assert_eq!(faults(&vec![0; 512], due), [Fault::Number, Fault::Space, Fault::Length, Fault::Flag]);
}

#[test]
fn point_8_what_is_answered() {
    for length in [1usize, 502, 503, 1_004, 1_234] {
        let (bytes, count) = (window(length), length.div_ceil(502));
        let mut lent = vec![0xA5; 512 * count + 20];
        assert_eq!(store(200, &bytes, &mut lent), Ok(512 * count));
        assert_eq!(lent[..512 * count], good(200, &bytes));
        assert_eq!(lent[512 * count..], [0xA5; 20]);
        let backup = &lent[..512 * count];
        let mut back = vec![0xA5; length + 600];
        assert_eq!(restore(backup, &mut back), Ok((length, 200)));
        assert_eq!(back[..length], bytes);
        assert_eq!(back[length..], [0xA5; 600]);
    }
}

#[test]
fn point_9_rooms() {
    for length in [1usize, 502, 503, 1_004, 1_005] {
        let needed = 512 * length.div_ceil(502);
        for room in [0, length, needed - 512, needed - 1, needed, needed + 1] {
            let wanted = if room < needed { "41.0".to_string() } else { format!("stored {needed}") };
            assert_eq!(storing(1, &window(length), room), wanted);
        }
        for room in [0, length - 1, length, length + 1, needed] {
            let wanted = if room < length { "41.0".to_string() } else { format!("restored {length} 1") };
            assert_eq!(reading(&good(1, &window(length)), room), wanted);
        }
    }
}

#[test]
fn point_10_cause_40() {
    for space in [0, 1, 254, 255] {
        assert_eq!(storing(space, &[1], 512), "stored 512");
        assert_eq!(storing(space, &[1], 511), "41.0");
        assert_eq!(storing(space, &[], 512), "40.0");
        assert_eq!(storing(space, &[], 0), "40.0");
    }
    for space in [256, 257, 511, 1 << 32, (1 << 32) + 5, 1 << 63, u64::MAX] {
        [0, 511, 512].iter().for_each(|room| assert_eq!(storing(space, &[1], *room), "40.0"));
    }
    assert!(is_storable(255, 1 << 32) && !is_storable(255, (1 << 32) + 1));
    assert!(!is_storable(256, 1 << 32) && !is_storable(0, 0) && is_storable(0, 1));
}

/// A block of this number, full and not the last.
fn numbered(number: u32) -> Vec<u8> {
    with(&good(7, &window(503))[..512], 0, 0, &number.to_be_bytes())
}

#[test]
fn point_11_reading_knows_no_40() {
    // Behind 2^32 bytes in all, and up to the greatest number.
    for position in [8_388_607, 8_388_608, 8_388_609, 1 << 31, u32::MAX] {
        let due = Due { position: position as u128, last: false, space: 7 };
        assert_eq!(faults(&numbered(position), due), []);
    }
    // No number is that of block 2^32.
    for number in [0, 1, u32::MAX] {
        let due = Due { position: 1 << 32, last: false, space: 7 };
        assert_eq!(faults(&numbered(number), due), [Fault::Number]);
    }
}

/// Block numbers of two and three bytes, which no frame has.
#[test]
fn many_blocks() {
    let bytes = window(502 * 65_537 + 1);
    let mut backup = vec![0; 512 * 65_538];
    assert_eq!(store(4, &bytes, &mut backup), Ok(backup.len()));
    for (position, number) in
        [(255, [0, 0, 0, 255]), (256, [0, 0, 1, 0]), (65_535, [0, 0, 255, 255]), (65_536, [0, 1, 0, 0])]
    {
        assert_eq!(block_of(&mut backup, position)[..4], number);
    }
    let mut back = vec![0; bytes.len()];
    assert_eq!(restore(&backup, &mut back), Ok((bytes.len(), 4)));
    assert!(back == bytes);
    let block = block_of(&mut backup, 65_537);
    block[1] = 0;
    recheck(block);
    assert_eq!(restore(&backup, &mut back).map_err(|refusal| (refusal.number, refusal.place)), Err((44, 65_537)));
}

/// Over a stream: what is stored is read back, and what is read back is stored as the same backup, so each window has one.
#[test]
fn there_and_back() {
    let stream = Stream::new(3, Sort::Backup, false);
    let (mut stored, mut restored) = (0, 0);
    for index in 0..4_000 {
        let case = stream.case(index);
        match (&case, answer(&case)) {
            (Case::Store { space, window, .. }, Answer::Stored { length, output }) => {
                let mut back = vec![0; window.len()];
                let told = restore(&output[..length as usize], &mut back);
                assert!(told == Ok((window.len(), *space as u8)) && back == *window);
                stored += 1;
            }
            (Case::Restore { backup, .. }, Answer::Restored { length, space, output }) => {
                assert!(good(space, &output[..length as usize]) == *backup);
                restored += 1;
            }
            (Case::Store { room, .. } | Case::Restore { room, .. }, Answer::BackupRefused { output, .. }) => {
                assert!(output == lent_output(*room));
            }
            _ => panic!(),
        }
    }
    assert!(stored > 500 && restored > 500, "{stored} {restored}");
}

/// Lines whose hashes were computed by another program.
#[test]
fn the_lines() {
    let stored =
        |space: u64, window: &[u8], room: u64| line(&answer(&Case::Store { space, window: window.to_vec(), room }));
    assert_eq!(stored(5, &[1], 512), "stored 512 edc04651c55ae9a9");
    assert_eq!(stored(5, &[1], 515), "stored 512 8f6f3e1e87d9c777");
    assert_eq!(stored(5, &[1], 511), "refused 41 0 468e4d393580373b");
    assert_eq!(stored(256, &[1], 512), "refused 40 0 6404ff35e8dec725");
    assert_eq!(stored(0, &[], 0), "refused 40 0 cbf29ce484222325");
    let bytes: Vec<u8> = (0..600).map(|place| place as u8).collect();
    assert_eq!(stored(253, &bytes, 1_024), "stored 1024 e74040f83cc083ad");
    assert_eq!(stored(253, &bytes, 1_100), "stored 1024 f90e059b0d34dfd1");
    let mut backup = good(253, &bytes);
    let restored = |backup: &[u8], room: u64| line(&answer(&Case::Restore { backup: backup.to_vec(), room }));
    assert_eq!(restored(&backup, 600), "restored 600 253 74128ef51dd1498d");
    assert_eq!(restored(&backup, 700), "restored 600 253 fd81442b74d37d81");
    assert_eq!(restored(&backup, 599), "refused 41 0 bd26f6a92d2b9433");
    assert_eq!(restored(&backup[..1_023], 700), "refused 42 0 06d004e5a970ace9");
    assert_eq!(restored(&backup[..512], 3), "refused 44 0 e20b021871089e3b");
    backup[600] ^= 1;
    assert_eq!(restored(&backup, 600), "refused 43 1 94c97877c10d0fd5");
}

#[test]
fn bad_frames() {
    let place = |bytes: &[u8]| Frames::new(bytes).find_map(|case| case.err()).map(|bad| bad.place);
    let storing = |length: usize, room: u64| frame(&Case::Store { space: 1, window: vec![1; length], room });
    let reading = |length: usize, room: u64| frame(&Case::Restore { backup: vec![1; length], room });
    assert_eq!(place(&storing(70_000, 80_000)), None);
    assert_eq!(place(&storing(70_001, 0)), Some(9));
    assert_eq!(place(&storing(2, 80_001)), Some(15));
    assert_eq!(place(&storing(2, u64::MAX)), Some(15));
    assert_eq!(place(&reading(80_000, 80_000)), None);
    assert_eq!(place(&reading(80_001, 0)), Some(1));
    assert_eq!(place(&reading(2, 80_001)), Some(7));
    for good in [storing(20, 512), reading(20, 20)] {
        for length in 1..good.len() {
            assert!(place(&good[..length]).is_some(), "{length}");
        }
    }
    assert_eq!(storing(2, 7), [b"K\0\0\0\0\0\0\0\x01\0\0\0\x02\x01\x01".as_slice(), &7u64.to_be_bytes()].concat());
    assert_eq!(reading(2, 7), [b"R\0\0\0\x02\x01\x01".as_slice(), &7u64.to_be_bytes()].concat());
}

#[test]
fn frames_round_trip() {
    let stream = Stream::new(11, Sort::Backup, false);
    let cases: Vec<Case> = (0..3_000).map(|index| stream.case(index)).chain(boundaries::of_backup()).collect();
    let bytes: Vec<u8> = cases.iter().flat_map(frame).collect();
    let back: Vec<Case> = Frames::new(bytes.as_slice()).map(|case| case.unwrap()).collect();
    assert!(back == cases);
}

/// Frames K and R are no part of the stream whose cases the definitions compute, and no statements are made of them.
#[test]
fn all_has_no_backups() {
    for small in [false, true] {
        let stream = Stream::new(1, Sort::All, small);
        let is_backup = |case: Case| matches!(case, Case::Store { .. } | Case::Restore { .. });
        assert!((0..600).all(|index| !is_backup(stream.case(index))));
    }
    for case in [Case::Store { space: 1, window: vec![1], room: 512 }, Case::Restore { backup: Vec::new(), room: 0 }] {
        let mut statements = Command::new(env!("CARGO_BIN_EXE_statements"));
        statements.arg("no-such-folder").stdin(Stdio::piped()).stdout(Stdio::null()).stderr(Stdio::null());
        let mut running = statements.spawn().unwrap();
        running.stdin.take().unwrap().write_all(&frame(&case)).unwrap();
        assert_eq!(running.wait().unwrap().code(), Some(1));
    }
}

/// Where a backup differs from the sample, if in one byte: the place in its block.
fn changed_place(backup: &[u8], sample: &[u8]) -> Option<usize> {
    if backup.len() != sample.len() {
        return None;
    }
    let places: Vec<usize> = (0..sample.len()).filter(|place| backup[*place] != sample[*place]).collect();
    match places[..] {
        [place] => Some(place % BLOCK),
        _ => None,
    }
}

/// Of 10,000 cases of seed 1: the share of each answer in its frame, each boundary, a change at each place of a block, and the size.
#[test]
fn the_stream_of_backups() {
    let stream = Stream::new(1, Sort::Backup, false);
    let (mut shares, mut reached) = (Shares::default(), Reached::default());
    let (mut bytes, mut places, sample) = (0, BTreeSet::new(), boundaries::sample());
    for index in 0..10_000 {
        let case = stream.case(index);
        shares.add(&case);
        reached.add(&case);
        bytes += frame(&case).len();
        if let Case::Restore { backup, .. } = &case {
            places.extend(changed_place(backup, &sample));
        }
    }
    for (kind, labels) in [("store", &["stored", "40", "41"][..]), ("restore", &["restored", "42", "43", "44", "41"])] {
        for label in labels {
            assert!(shares.percent(kind, label) >= 1.0, "{kind} {label}: {}", shares.percent(kind, label));
        }
        assert!(shares.total(kind) >= 2_500);
    }
    for thing in backups::labels() {
        assert!(reached.count(&thing) >= 20, "{thing}: {}", reached.count(&thing));
    }
    assert_eq!(places.len(), BLOCK);
    assert!(boundaries::of_backup().len() <= 10_000 / 4);
    assert!(bytes <= 40_000_000, "{bytes}");
}
