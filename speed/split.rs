//! Sort keys, buckets, and keys in a fixed mixed order.

const LOW_BITS: u64 = 0x7fff_ffff_ffff_ffff;

/// The position of a node in the order of the list: by its word, which is its key or its bucket
/// with the bits reversed, and of the same word a dummy before a regular node. So keys that differ
/// only in their highest bit are side by side.
#[derive(Clone, Copy, PartialEq, Eq, PartialOrd, Ord)]
pub struct SortKey {
    pub word: u64,
    pub is_regular: bool,
}

impl SortKey {
    pub fn regular(key: u64) -> SortKey {
        SortKey {
            word: key.reverse_bits(),
            is_regular: true,
        }
    }

    pub fn dummy(bucket: u32) -> SortKey {
        SortKey {
            word: u64::from(bucket).reverse_bits(),
            is_regular: false,
        }
    }

    pub fn is_before(self, other: SortKey) -> bool {
        self < other
    }
}

pub fn parent(bucket: u32) -> u32 {
    bucket - (1 << bucket.ilog2())
}

pub fn bucket_of(key: u64, size: u32) -> u32 {
    (key & u64::from(size - 1)) as u32
}

/// The bucket to which a place of the order belongs.
pub fn bucket_at(word: u64, size: u32) -> u32 {
    bucket_of(word.reverse_bits(), size)
}

pub fn key_at(position: u64) -> u64 {
    let spread = position.wrapping_mul(0x9e37_79b9_7f4a_7c15) & LOW_BITS;
    let folded = spread ^ (spread >> 32);
    folded.wrapping_mul(0xd6e8_feb8_6659_fd93) & LOW_BITS
}
