//! How many nodes are marked in each of 4,096 regions of the split keys, in each group of 64 of
//! these, and in all.

const REGION_BITS: u32 = 52;
const WIDTH: usize = 64;

pub struct Tally {
    total: u64,
    groups: [u64; WIDTH],
    regions: Vec<u64>,
}

impl Tally {
    pub fn new() -> Tally {
        Tally {
            total: 0,
            groups: [0; WIDTH],
            regions: vec![0; WIDTH * WIDTH],
        }
    }

    pub fn add(&mut self, split: u64) {
        let region = (split >> REGION_BITS) as usize;
        self.regions[region] += 1;
        self.groups[region / WIDTH] += 1;
        self.total += 1;
    }

    pub fn take_away(&mut self, split: u64) {
        let region = (split >> REGION_BITS) as usize;
        self.regions[region] -= 1;
        self.groups[region / WIDTH] -= 1;
        self.total -= 1;
    }

    pub fn total(&self) -> u64 {
        self.total
    }

    /// The first split key of the first region in which a node is marked.
    pub fn first(&self) -> Option<u64> {
        let group = self.groups.iter().position(|count| *count > 0)?;
        let regions = &self.regions[group * WIDTH..][..WIDTH];
        let region = group * WIDTH + regions.iter().position(|count| *count > 0)?;
        Some((region as u64) << REGION_BITS)
    }
}
