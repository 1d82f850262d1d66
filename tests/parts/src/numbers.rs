//! Numbers, patterns and texts that look random, and are the same in each run.
use std::alloc::{AllocError, Global};

/// What patterns are made of.
const PIECES: &[&[u8]] = &[
    b"a",
    b"b",
    b"A",
    b"/",
    b"*",
    b"**",
    b"?",
    b"[ab]",
    b"[!a]",
    b"**/",
    b"\\*",
    b"[[:alpha:]]",
    b"[",
    b"*b*",
];

/// What texts are made of.
const BYTES: &[u8] = b"abAB/*c";

/// Numbers that look random.
#[derive(Drop)]
pub struct Numbers(pub u64);

impl Numbers {
    /// The next number, below one.
    pub fn below(&mut self, bound: usize) -> usize {
        self.0 = self
            .0
            .wrapping_mul(6_364_136_223_846_793_005)
            .wrapping_add(1_442_695_040_888_963_407);
        ((self.0 >> 33) as usize).checked_rem(bound).unwrap_or(0)
    }

    /// A pattern of up to six pieces.
    pub fn pattern(&mut self, alloc: Global) -> Result<Vec<u8>, AllocError> {
        let mut pattern = Vec::new(alloc);
        for _piece in 0..self.below(7) {
            if let Some(piece) = PIECES.get(self.below(PIECES.len())) {
                pattern.extend_from_slice(piece)?;
            }
        }
        Ok(pattern)
    }

    /// A text of fewer bytes than a bound.
    pub fn text(&mut self, alloc: Global, bound: usize) -> Result<Vec<u8>, AllocError> {
        let mut text = Vec::new(alloc);
        for _byte in 0..self.below(bound) {
            if let Some(byte) = BYTES.get(self.below(BYTES.len())) {
                text.push(*byte)?;
            }
        }
        Ok(text)
    }
}
