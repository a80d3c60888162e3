//! A backup gone through block by block.

use crate::{calls, Block, Cause, BLOCK};
use std::iter::FusedIterator;
use std::ops::Range;

/// Goes through the blocks of a backup, bad ones too. Any bytes may be handed in.
///
/// Each block is judged where it stands, by the library. The first bad one of a backup of whole blocks is the one that [`read`](crate::read) tells, with the
/// same cause. Behind it:
///
/// - The space is that of the first block whose check fits, so that a changed byte in block 0 doesn't speak against all others.
/// - Bytes behind the last whole block are [no block](Blocks::rest). They may be one that was cut off, or be too many: the block before them is good with
///   either flag, and is judged as the last one where that is 1.
///
/// ```
/// use planksling_backup::{inspect, store, Cause};
///
/// let mut backup = store(7, &[1; 1200])?;
/// backup[512 + 20] = 9;
/// let blocks = inspect(&backup);
/// assert_eq!(blocks.len(), 3);
/// let good: usize = blocks.clone().filter(|block| block.is_good()).map(|block| block.payload().len()).sum();
/// assert_eq!(good, 698);
/// for block in blocks {
///     let cause = (block.position == 1).then_some(Cause::BadCheck);
///     assert_eq!((block.number() as usize, block.cause()), (block.position, cause));
/// }
/// # Ok::<(), planksling_backup::Refusal>(())
/// ```
pub fn inspect(backup: &[u8]) -> Blocks<'_> {
    let blocks = Blocks { backup, positions: 0..backup.len() / BLOCK, space: 0 };
    // a check that doesn't fit is told whatever the space
    let sound = blocks.clone().find(|block| block.cause() != Some(Cause::BadCheck));
    match sound.or_else(|| blocks.clone().next()) {
        Some(block) => Blocks { space: block.space(), ..blocks },
        None => blocks,
    }
}

/// The blocks of a backup, each with its verdict: see [`inspect`].
#[derive(Clone, Debug)]
pub struct Blocks<'b> {
    backup: &'b [u8],
    /// The positions that are to come.
    positions: Range<usize>,
    /// The space by which they are judged.
    space: u8,
}

impl<'b> Blocks<'b> {
    /// The bytes behind the last whole block, which are none. A backup has no such bytes.
    pub fn rest(&self) -> &'b [u8] {
        &self.backup[self.backup.len() / BLOCK * BLOCK..]
    }

    /// The block at this position.
    fn judged(&self, position: usize) -> Block<'b> {
        let bytes = self.backup[BLOCK * position..].first_chunk().expect("a whole block");
        let mut block = Block { position, bytes, is_last: false, wanted: self.space, cause: None };
        let whole = self.backup.len() / BLOCK - position - 1;
        // with a rest behind it its flag tells whether it is the last
        let behind = if whole == 0 && !self.rest().is_empty() { usize::from(block.flag() != 1) } else { whole };
        block.is_last = behind == 0;
        block.cause = calls::judge(bytes, position, behind, self.space.into()).err().map(|refusal| refusal.cause);
        block
    }
}

impl<'b> Iterator for Blocks<'b> {
    type Item = Block<'b>;

    fn next(&mut self) -> Option<Block<'b>> {
        self.positions.next().map(|position| self.judged(position))
    }

    fn size_hint(&self) -> (usize, Option<usize>) {
        self.positions.size_hint()
    }

    fn nth(&mut self, n: usize) -> Option<Block<'b>> {
        self.positions.nth(n).map(|position| self.judged(position))
    }
}

impl<'b> DoubleEndedIterator for Blocks<'b> {
    fn next_back(&mut self) -> Option<Block<'b>> {
        self.positions.next_back().map(|position| self.judged(position))
    }
}

impl ExactSizeIterator for Blocks<'_> {}

impl FusedIterator for Blocks<'_> {}
