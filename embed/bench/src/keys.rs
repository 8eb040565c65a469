//! Random keys and the rows of requests that every peer is asked alike.

/// A row of 64-bit numbers that look random and are all different.
pub struct Random(u64);

impl Random {
    pub fn new(seed: u64) -> Random {
        Random(seed << 48)
    }

    pub fn next(&mut self) -> u64 {
        self.0 = self.0.wrapping_add(0x9e37_79b9_7f4a_7c15);
        let mixed = (self.0 ^ (self.0 >> 30)).wrapping_mul(0xbf58_476d_1ce4_e5b9);
        let mixed = (mixed ^ (mixed >> 27)).wrapping_mul(0x94d0_49bb_1331_11eb);
        mixed ^ (mixed >> 31)
    }

    pub fn below(&mut self, bound: usize) -> usize {
        (self.next() % bound as u64) as usize
    }

    pub fn row(&mut self, count: usize) -> Vec<u64> {
        (0..count).map(|_| self.next()).collect()
    }
}

/// The lower bits of a value, which tell the rounds apart.
pub const ROUND_BITS: u32 = 44;

/// The value that a key gets in a round. It is never 0, which one peer cannot keep.
pub fn value_of(key: u64, round: u64) -> u64 {
    (key ^ (round << 20)) | 1
}

/// What is asked in one round.
pub struct Asked {
    /// Fetched before each batch, untimed.
    pub warming: Vec<u64>,
    pub hits: Vec<u64>,
    pub misses: Vec<u64>,
    pub replaced: Vec<u64>,
    /// All different: deleted, then put back in another order.
    pub deleted: Vec<u64>,
    pub put_back: Vec<u64>,
}

impl Asked {
    /// Rows of `batch` requests on the keys that stand; of the changes at most half as many as there are keys.
    pub fn new(random: &mut Random, keys: &[u64], batch: usize) -> Asked {
        let mut present = |count: usize| (0..count).map(|_| keys[random.below(keys.len())]).collect();
        let warming = present(batch / 2);
        let hits = present(batch);
        let replaced = present(batch);
        let misses = random.row(batch);
        let deleted = different(random, keys, batch.min(keys.len() / 2));
        let put_back = different(random, &deleted, deleted.len());
        Asked {
            warming,
            hits,
            misses,
            replaced,
            deleted,
            put_back,
        }
    }
}

/// So many different ones of the keys, in random order.
fn different(random: &mut Random, keys: &[u64], count: usize) -> Vec<u64> {
    let mut shuffled = keys.to_vec();
    for at in 0..count {
        let other = at + random.below(shuffled.len() - at);
        shuffled.swap(at, other);
    }
    shuffled.truncate(count);
    shuffled
}
