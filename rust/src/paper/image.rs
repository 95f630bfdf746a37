//! Flash image: a region of b blocks, one work block, then a spare of b blocks.

pub const BLOCK: usize = 4096;

/// The three parts of an image, and b.
#[derive(Clone, Copy)]
pub struct Parts<'a> {
    pub blocks: usize,
    pub region: &'a [u8],
    pub work: &'a [u8],
    pub spare: &'a [u8],
}

impl<'a> Parts<'a> {
    /// None if the image length is not 4,096 × (2b + 1) with b from 1 to 7.
    pub fn of(image: &'a [u8]) -> Option<Parts<'a>> {
        let blocks = (1..=7).find(|b| image.len() == BLOCK * (2 * b + 1))?;
        let (region, rest) = image.split_at(BLOCK * blocks);
        let (work, spare) = rest.split_at(BLOCK);
        Some(Parts { blocks, region, work, spare })
    }

    /// L, the region's length.
    pub fn length(&self) -> usize {
        self.region.len()
    }

    /// Where the spare begins.
    pub fn spare_at(&self) -> usize {
        self.length() + BLOCK
    }
}

/// Whether every byte is FF.
pub fn blank(bytes: &[u8]) -> bool {
    bytes.chunks(64).all(|chunk| chunk.iter().fold(0xFF, |all, byte| all & byte) == 0xFF)
}
