//! Keeps the entry blocks that were read last.

use super::locks;
use crate::Block;
use std::sync::{Arc, Mutex};

/// How many bytes the kept blocks have together at most: 8 MiB.
const KEPT_BYTES: usize = 8 << 20;

/// How many blocks are kept at most.
const KEPT_BLOCKS: usize = 16;

/// Entry blocks that were read, by their place: the entry bytes, whose checksum was tested. Of each reading it keeps the last
/// block, since the next reading often goes on there. What stands at a place never changes while an engine is open, so no block
/// gets stale.
#[derive(Default)]
pub(super) struct KeptBlocks(Mutex<BlockCache>);

/// The kept blocks, in no order, and a clock that says which were read last.
#[derive(Default)]
struct BlockCache {
    blocks: Vec<KeptBlock>,
    /// How many bytes the blocks have together.
    len: usize,
    /// How often a block was looked for or kept, as a clock.
    readings: u64,
}

/// A kept block.
struct KeptBlock {
    /// Its place.
    block: Block,
    /// Its entry bytes.
    bytes: Arc<Vec<u8>>,
    /// When it was read last, by that clock.
    reading: u64,
}

impl KeptBlocks {
    /// Returns the entry bytes of a block, which counts as the one that was read last from then on; `None` where they aren't
    /// kept.
    pub(super) fn get(&self, block: &Block) -> Option<Arc<Vec<u8>>> {
        let mut all = locks::lock(&self.0);
        all.readings += 1;
        let reading = all.readings;
        let mut from_the_last = all.blocks.iter_mut().rev();
        let kept = from_the_last.find(|kept| kept.block == *block)?;
        kept.reading = reading;
        Some(kept.bytes.clone())
    }

    /// Keeps the entry bytes of a block, and drops the blocks that were read longest ago, as many as it takes to stay within the
    /// bounds. It keeps nothing where the block is kept already, has more than 8 MiB, or there is no memory.
    pub(super) fn keep(&self, block: &Block, bytes: &Arc<Vec<u8>>) {
        let mut all = locks::lock(&self.0);
        let is_kept = all.blocks.iter().rev().any(|kept| kept.block == *block);
        if is_kept || bytes.len() > KEPT_BYTES || all.blocks.try_reserve(1).is_err() {
            return;
        }
        while all.blocks.len() >= KEPT_BLOCKS || all.len > KEPT_BYTES - bytes.len() {
            all.drop_oldest();
        }
        all.len += bytes.len();
        all.readings += 1;
        let kept = KeptBlock {
            block: *block,
            bytes: bytes.clone(),
            reading: all.readings,
        };
        all.blocks.push(kept);
    }
}

impl BlockCache {
    /// Drops the block that was read longest ago, if there is one.
    fn drop_oldest(&mut self) {
        let by_age = self.blocks.iter().enumerate();
        if let Some((at, _)) = by_age.min_by_key(|(_, kept)| kept.reading) {
            self.len -= self.blocks.swap_remove(at).bytes.len();
        }
    }
}
