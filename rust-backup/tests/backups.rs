//! Windows stored and read back, the worked cases of the definitions, every changed byte, and what a refusal leaves.

use planksling_backup::{read, read_into, room, store, store_into, Cause, Refusal, BLOCK, MOST, PAYLOAD};

fn refusal(cause: Cause, place: usize) -> Refusal {
    Refusal { cause, place }
}

/// Bytes that differ from their neighbours.
fn bytes(length: usize) -> Vec<u8> {
    (0..length).map(|i| (i * 31 + i / 256) as u8).collect()
}

/// What the two last bytes of a block must be.
fn check(block: &[u8]) -> [u8; 2] {
    let sum: u64 = block[..510].chunks(2).map(|pair| u64::from(pair[0]) * 256 + u64::from(pair[1])).sum();
    ((sum % 65_535) as u16).to_be_bytes()
}

/// A block as the layout says, made once more.
fn block(number: u32, length: u16, space: u8, flag: u8, payload: &[u8]) -> Vec<u8> {
    let mut block = [&number.to_be_bytes()[..], &length.to_be_bytes(), &[space, flag], payload].concat();
    block.resize(510, 0);
    block.extend(check(&block));
    block
}

/// The backup of a window, made once more.
fn made(space: u8, window: &[u8]) -> Vec<u8> {
    let last = window.chunks(PAYLOAD).len() - 1;
    let blocks = window.chunks(PAYLOAD).enumerate();
    let blocks = blocks.map(|(i, part)| block(i as u32, part.len() as u16, space, u8::from(i == last), part));
    blocks.collect::<Vec<_>>().concat()
}

#[test]
fn lengths() {
    for length in [1, 2, 3, 501, 502, 503, 504, 1003, 1004, 1005, 1506, 5020, 100_000] {
        let window = bytes(length);
        for space in [0, 7, 253, 255] {
            let backup = store(space.into(), &window).expect("a backup");
            assert_eq!(backup.len(), room(length));
            assert_eq!(backup, made(space, &window), "{length} bytes");
            let back = read(&backup).expect("a window");
            assert_eq!((back.space, &back.bytes), (space.into(), &window));
        }
    }
    assert_eq!([1, 501, 502, 503, 1004, 1005].map(room), [512, 512, 512, 1024, 1024, 1536]);
    assert_eq!(room(usize::MAX), usize::MAX);
}

#[test]
fn what_can_not_be_stored() {
    for space in [0, 253, 256, u64::MAX] {
        assert_eq!(store(space, &[]), Err(refusal(Cause::NotStorable, 0)));
    }
    for space in [256, 257, 511, 1 << 32, u64::MAX] {
        assert_eq!(store(space, &[1, 2, 3]), Err(refusal(Cause::NotStorable, 0)));
        // 40 comes before 41
        assert_eq!(store_into(space, &[1, 2, 3], &mut []), Err(refusal(Cause::NotStorable, 0)));
    }
    assert_eq!(store_into(253, &[1, 2, 3], &mut []), Err(refusal(Cause::NoRoom, 0)));
    assert_eq!(MOST, 4_294_967_296);
}

/// The cases that the definitions work out (crates/blocks/specs/Worked.antt).
#[test]
fn worked() {
    let three = store(253, &[1, 2, 3]).expect("three bytes");
    assert_eq!(three[..11], [0, 0, 0, 0, 0, 3, 253, 1, 1, 2, 3]);
    assert!(three[11..510].iter().all(|&byte| byte == 0));
    assert_eq!(three[510..], [1, 7]);
    let full = store(7, &[255; 502]).expect("a full block");
    assert_eq!((full.len(), &full[..9]), (512, &[0, 0, 0, 0, 1, 246, 7, 1, 255][..]));
    let more = store(7, &[[255; 502].as_slice(), &[9]].concat()).expect("a full block and a byte");
    assert_eq!((more.len(), &more[..9]), (1024, &[0, 0, 0, 0, 1, 246, 7, 0, 255][..]));
    assert_eq!(more[512..522], [0, 0, 0, 1, 0, 1, 7, 1, 9, 0]);
    // the sum is a multiple of 65,535, and FFFF is no check
    let whole = store(255, &[0, 252]).expect("two bytes");
    assert_eq!(whole[510..], [0, 0]);
    let with = |backup: &[u8], at: usize, byte: u8| {
        let mut changed = backup.to_vec();
        changed[at] = byte;
        changed
    };
    let mended = |backup: Vec<u8>| [&backup[..510], &check(&backup)].concat();
    let (first, second) = more.split_at(512);
    let bad = [
        (vec![], Cause::NotWhole, 0),
        (three[..511].to_vec(), Cause::NotWhole, 0),
        ([&three[..], &[0]].concat(), Cause::NotWhole, 0),
        (with(&three, 3, 1), Cause::BadCheck, 0),
        (with(&three, 8, 0), Cause::BadCheck, 0),
        (with(&three, 509, 1), Cause::BadCheck, 0),
        (with(&three, 511, 8), Cause::BadCheck, 0),
        (with(&more, 6, 8), Cause::BadCheck, 0),
        (with(&more, 519, 0), Cause::BadCheck, 1),
        (with(&with(&whole, 510, 255), 511, 255), Cause::BadCheck, 0),
        (block(1, 3, 253, 1, &[1, 2, 3]), Cause::BadField, 0),
        (mended(with(&three, 5, 0)), Cause::BadField, 0),
        (mended(with(&full, 5, 247)), Cause::BadField, 0),
        (block(0, 3, 253, 2, &[1, 2, 3]), Cause::BadField, 0),
        (mended(with(&three, 509, 1)), Cause::BadField, 0),
        (first.to_vec(), Cause::BadField, 0),
        (second.to_vec(), Cause::BadField, 0),
        ([second, first].concat(), Cause::BadField, 0),
        ([&three[..], &three].concat(), Cause::BadField, 0),
        ([block(0, 2, 7, 0, &[1, 2]), block(1, 1, 7, 1, &[3])].concat(), Cause::BadField, 0),
        ([first, &block(1, 1, 8, 1, &[9])].concat(), Cause::BadField, 1),
        // 44 in block 0 comes before 43 in block 1
        ([block(1, 502, 7, 0, &[255; 502]), with(&three, 8, 0)].concat(), Cause::BadField, 0),
        // zeros are no block
        (vec![0; 512], Cause::BadField, 0),
    ];
    for (backup, cause, place) in bad {
        let mut output = vec![0xEE; 2000];
        assert_eq!(read_into(&backup, &mut output), Err(refusal(cause, place)), "{:?}", &backup.get(..12));
        assert!(output.iter().all(|&byte| byte == 0xEE));
        assert_eq!(read(&backup), Err(refusal(cause, place)));
        // a bad backup is told before an output that is too small
        assert_eq!(read_into(&backup, &mut []), Err(refusal(cause, place)));
    }
}

/// Every other byte at every place is 43 at its block.
#[test]
fn every_byte_changed() {
    let backup = store(253, &bytes(503)).expect("a backup");
    let mut output = [0xEE; 503];
    for at in 0..backup.len() {
        let mut changed = backup.clone();
        for step in 1..=255 {
            changed[at] = backup[at].wrapping_add(step);
            assert_eq!(read_into(&changed, &mut output), Err(refusal(Cause::BadCheck, at / BLOCK)), "byte {at}");
        }
    }
    assert_eq!(output, [0xEE; 503]);
    read_into(&backup, &mut output).expect("the backup itself");
    assert_eq!(output[..], bytes(503)[..]);
}

/// Of a short output no byte changes, of a long one none behind what is stored.
#[test]
fn outputs() {
    for length in [1, 501, 502, 503, 1004] {
        let window = bytes(length);
        let backup = store(9, &window).expect("a backup");
        for short in [0, 1, backup.len() / 2, backup.len() - 1] {
            let mut output = vec![0xEE; short];
            assert_eq!(store_into(9, &window, &mut output), Err(refusal(Cause::NoRoom, 0)));
            assert!(output.iter().all(|&byte| byte == 0xEE));
        }
        for short in [0, 1, length / 2, length - 1].into_iter().filter(|&short| short < length) {
            let mut output = vec![0xEE; short];
            assert_eq!(read_into(&backup, &mut output), Err(refusal(Cause::NoRoom, 0)));
            assert!(output.iter().all(|&byte| byte == 0xEE));
        }
        for more in [0, 1, 600] {
            let mut output = vec![0xEE; backup.len() + more];
            assert_eq!(store_into(9, &window, &mut output), Ok(backup.len()));
            assert_eq!(output, [&backup[..], &vec![0xEE; more]].concat());
            let mut output = vec![0xEE; length + more];
            let restored = read_into(&backup, &mut output).expect("a window");
            assert_eq!((restored.space, restored.length), (9, length));
            assert_eq!(output, [&window[..], &vec![0xEE; more]].concat());
        }
    }
}

/// The table of refusals in the repository's README has the same numbers and words.
#[test]
fn causes() {
    let numbers: Vec<usize> = Cause::ALL.iter().map(|cause| cause.number()).collect();
    assert_eq!(numbers, [40, 41, 42, 43, 44]);
    let readme = include_str!("../../README.md");
    for cause in Cause::ALL {
        assert!(readme.contains(&format!("\n| {} | {cause} | ", cause.number())), "{cause}");
    }
    assert_eq!(format!("{:>36}|", Cause::BadCheck), "    the check of a block doesn't fit|");
    assert_eq!(refusal(Cause::BadCheck, 3).to_string(), "refused 43 at 3: the check of a block doesn't fit");
}

/// All types go from one thread to another, and calls run at the same time.
#[test]
fn threads() {
    fn moves<T: Send + Sync>() {}
    moves::<Refusal>();
    moves::<planksling_backup::Window>();
    moves::<planksling_backup::Blocks<'_>>();
    let window = bytes(5000);
    std::thread::scope(|scope| {
        for space in 0..4 {
            let window = &window;
            scope.spawn(move || {
                for _ in 0..200 {
                    let backup = store(space, window).expect("a backup");
                    assert_eq!(read(&backup).expect("a window").space, space);
                }
            });
        }
    });
}
