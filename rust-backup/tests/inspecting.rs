//! Backups gone through block by block: good ones, each thing that can be wrong, and any bytes.

use planksling_backup::{inspect, read, store, Block, Cause, Refusal, BLOCK, PAYLOAD};

fn bytes(length: usize) -> Vec<u8> {
    (0..length).map(|i| (i * 31 + i / 256) as u8).collect()
}

fn backup(space: u64, length: usize) -> Vec<u8> {
    store(space, &bytes(length)).expect("a backup")
}

/// Gives every block the check that fits it.
fn mend(backup: &mut [u8]) {
    for block in backup.chunks_exact_mut(BLOCK) {
        let sum: u64 = block[..510].chunks(2).map(|pair| u64::from(pair[0]) * 256 + u64::from(pair[1])).sum();
        block[510..].copy_from_slice(&((sum % 65_535) as u16).to_be_bytes());
    }
}

fn words(block: &Block<'_>) -> String {
    block.faults().iter().map(|fault| fault.to_string()).collect::<Vec<_>>().join("; ")
}

/// What is wrong with each block, in words.
fn told(backup: &[u8]) -> Vec<String> {
    inspect(backup).map(|block| words(&block)).collect()
}

/// What holds for the blocks of any bytes.
fn holds(backup: &[u8]) {
    let blocks = inspect(backup);
    assert_eq!((blocks.len(), blocks.rest().len()), (backup.len() / BLOCK, backup.len() % BLOCK));
    for (position, block) in blocks.clone().enumerate() {
        assert_eq!(block.position, position);
        assert_eq!(block.bytes[..], backup[BLOCK * position..][..BLOCK]);
        // words are there exactly where the verdict is bad
        assert_eq!(block.is_good(), block.faults().is_empty(), "{block:?}");
        assert!(block.payload().len() <= PAYLOAD);
    }
    let bad = blocks.clone().find_map(|block| Some((block.cause()?, block.position)));
    match read(backup) {
        Ok(window) => {
            assert_eq!(bad, None);
            assert_eq!(blocks.flat_map(|block| block.payload().to_vec()).collect::<Vec<_>>(), window.bytes);
        }
        Err(Refusal { cause: Cause::NotWhole, .. }) => {
            assert!(backup.is_empty() || backup.len() % BLOCK > 0)
        }
        Err(Refusal { cause, place }) => assert_eq!(bad, Some((cause, place))),
    }
}

#[test]
fn good_blocks() {
    for length in [1, 501, 502, 503, 1004, 5000] {
        let backup = backup(253, length);
        holds(&backup);
        let count = backup.len() / BLOCK;
        for (i, block) in inspect(&backup).enumerate() {
            assert!(block.is_good() && block.cause().is_none() && block.faults().is_empty());
            let payload = &bytes(length)[PAYLOAD * i..length.min(PAYLOAD * i + PAYLOAD)];
            assert_eq!((block.payload(), usize::from(block.length())), (payload, payload.len()));
            assert_eq!((block.number() as usize, block.space(), block.flag()), (i, 253, u8::from(i + 1 == count)));
            assert_eq!(block.check().to_be_bytes(), backup[BLOCK * i + 510..][..2]);
        }
    }
}

#[test]
fn from_both_ends() {
    let backup = backup(1, 2000);
    let mut blocks = inspect(&backup);
    let positions = [blocks.next_back(), blocks.next(), blocks.nth(1), blocks.next(), blocks.next_back()];
    assert_eq!(positions.map(|block| block.map(|block| block.position)), [Some(3), Some(0), Some(2), None, None]);
    assert_eq!((blocks.len(), inspect(&backup).rev().len()), (0, 4));
    assert!(inspect(&backup).rev().all(|block| block.is_good()));
}

/// A field changed in block 1 of 3, or in the last, with the check that fits.
#[test]
fn each_field() {
    let cases: &[(usize, &[u8], &str)] = &[
        (512, &[0, 0, 0, 7], "the number is 7 and not 1"),
        (512, &[255, 255, 255, 255], "the number is 4294967295 and not 1"),
        (518, &[8], "the space is 8 and not 7"),
        (516, &[0, 0], "the length is 0 and not 502 in a block before the last"),
        (516, &[1, 245], "the length is 501 and not 502 in a block before the last"),
        (519, &[1], "the flag is 1 and not 0 in a block before the last"),
        (519, &[200], "the flag is 200 and not 0 in a block before the last"),
        (1028, &[0, 0], "the length is 0 and not 1 to 502"),
        (1028, &[1, 247], "the length is 503 and not 1 to 502"),
        (1028, &[255, 255], "the length is 65535 and not 1 to 502"),
        (1031, &[0], "the flag is 0 and not 1 in the last block"),
        (1042, &[1], "byte 18, behind the payload, is not zero"),
        (1533, &[255], "byte 509, behind the payload, is not zero"),
        (
            512,
            &[0, 0, 0, 0, 1, 1, 9, 1],
            "the number is 0 and not 1; the space is 9 and not 7; the length is 257 and not 502 \
             in a block before the last; the flag is 1 and not 0 in a block before the last",
        ),
    ];
    for (at, changed, said) in cases {
        let mut backup = backup(7, 1014);
        backup[*at..at + changed.len()].copy_from_slice(changed);
        mend(&mut backup);
        holds(&backup);
        let mut wanted = [const { String::new() }; 3];
        wanted[at / BLOCK] = said.to_string();
        assert_eq!(told(&backup), wanted);
        let bad = inspect(&backup).nth(at / BLOCK).expect("the block");
        assert_eq!(bad.cause(), Some(Cause::BadField));
    }
}

/// A wrong length alone: in a backup of zeros no byte behind a shorter payload speaks.
#[test]
fn lengths_of_zeros() {
    for (at, lengths) in
        [(4, [0, 1, 501, 503, 65_535]), (516, [0, 1, 501, 503, 65_535]), (1028, [0, 503, 504, 1024, 65_535])]
    {
        for length in lengths {
            let mut backup = store(7, &[0; 1014]).expect("a backup");
            backup[at..at + 2].copy_from_slice(&(length as u16).to_be_bytes());
            mend(&mut backup);
            holds(&backup);
            let bad = inspect(&backup).nth(at / BLOCK).expect("the block");
            assert_eq!((bad.cause(), usize::from(bad.length())), (Some(Cause::BadField), length));
            assert!(words(&bad).starts_with(&format!("the length is {length} and not ")), "{}", words(&bad));
            assert_eq!(bad.faults().len(), 1);
        }
    }
}

#[test]
fn every_byte_changed() {
    let good = backup(7, 600);
    for at in 0..good.len() {
        let mut backup = good.clone();
        backup[at] ^= 0x55;
        let causes: Vec<_> = inspect(&backup).map(|block| block.cause()).collect();
        let mut wanted = [None; 2];
        wanted[at / BLOCK] = Some(Cause::BadCheck);
        assert_eq!(causes, wanted, "byte {at}");
        let bad = inspect(&backup).nth(at / BLOCK).expect("the block");
        assert!(words(&bad).starts_with(&format!("the check is 0x{:04X} and the sum 0x", bad.check())));
        holds(&backup);
    }
}

/// Where block 0 is changed its space doesn't speak against the others; where no check fits each is told for its own.
#[test]
fn the_space() {
    let mut backup = backup(7, 1500);
    backup[6] = 9;
    assert_eq!(inspect(&backup).map(|block| block.is_good()).collect::<Vec<_>>(), [false, true, true]);
    // with its check mended block 0 says what the space is
    mend(&mut backup[..BLOCK]);
    assert_eq!(told(&backup), ["", "the space is 7 and not 9", "the space is 7 and not 9"]);
    holds(&backup);
    for at in [9, 521, 1033] {
        backup[at] ^= 1;
    }
    assert!(inspect(&backup).all(|block| block.cause() == Some(Cause::BadCheck)));
    holds(&backup);
}

/// A rest behind the last whole block: that may be one that was cut off, or bytes too many.
#[test]
fn cut_off_and_too_long() {
    let good = backup(7, 1014);
    for end in [513, 1000, 1023, 1025, 1535] {
        let blocks = inspect(&good[..end]);
        assert!(blocks.clone().all(|block| block.is_good()));
        assert_eq!(blocks.rest(), &good[end / BLOCK * BLOCK..end]);
        holds(&good[..end]);
    }
    // cut off behind a block: that one isn't the last
    assert_eq!(told(&good[..1024]), ["", "the flag is 0 and not 1 in the last block"]);
    let long = [&good[..], b"\n"].concat();
    assert!(inspect(&long).all(|block| block.is_good()));
    assert_eq!(inspect(&long).rest(), b"\n");
    // a flag that is neither, before a rest
    let mut strange = long;
    strange[1031] = 2;
    mend(&mut strange[..1536]);
    assert_eq!(
        told(&strange)[2],
        "the length is 10 and not 502 in a block before the last; \
        the flag is 2 and not 0 in a block before the last"
    );
    holds(&strange);
    for length in [0, 1, 511] {
        assert_eq!(inspect(&good[..length]).len(), 0);
        assert_eq!(inspect(&good[..length]).rest().len(), length);
        holds(&good[..length]);
    }
}

/// Blocks left out, doubled, exchanged, of another backup; zeros and other bytes.
#[test]
fn other_bytes() {
    let (one, other) = (backup(7, 1500), backup(8, 1500));
    let part = |of: &[u8], i: usize| of[BLOCK * i..BLOCK * (i + 1)].to_vec();
    holds(&[part(&one, 0), part(&one, 2)].concat());
    assert_eq!(told(&[part(&one, 0), part(&one, 2)].concat()), ["", "the number is 2 and not 1"]);
    holds(&[part(&one, 0), part(&one, 1), part(&one, 1), part(&one, 2)].concat());
    holds(&[part(&one, 1), part(&one, 0), part(&one, 2)].concat());
    holds(&[part(&one, 0), part(&other, 1), part(&one, 2)].concat());
    assert_eq!(told(&[part(&one, 0), part(&other, 1), part(&one, 2)].concat()), ["", "the space is 8 and not 7", ""]);
    for byte in [0, 1, 0x20, 255] {
        for length in [512, 1024, 1500] {
            holds(&vec![byte; length]);
        }
    }
    let mut state: u64 = 9;
    let mut below = |limit: usize| {
        state = state.wrapping_mul(6364136223846793005).wrapping_add(1442695040888963407);
        (state >> 33) as usize % limit
    };
    for round in 0..4000 {
        let mut backup = backup(below(256) as u64, 1 + below(1600));
        for _ in 0..=below(3) {
            // heads are changed more often than payloads
            let at = if below(2) == 0 { below(backup.len() / BLOCK) * BLOCK + below(9) } else { below(backup.len()) };
            backup[at] = [0, 1, 2, 246, 255, below(256) as u8][below(6)];
        }
        if round % 3 > 0 {
            mend(&mut backup);
        }
        if below(4) == 0 {
            backup.truncate(below(backup.len()));
        }
        holds(&backup);
    }
}
