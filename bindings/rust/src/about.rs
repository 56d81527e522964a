//! What stands at a path, and what is to be made there.

use crate::raw::{RawAbout, RawType};
use crate::value::{bytes_of, Value};

/// A type of whole numbers.
#[derive(Debug, Clone, Copy, PartialEq, Eq, Hash)]
pub struct Type {
    /// How many bytes a value has: 1, 2, 4 or 8.
    pub size: u8,
    pub is_signed: bool,
    /// Whether the high byte stands first. It does not matter for one byte.
    pub is_big: bool,
}

impl Type {
    pub(crate) fn raw(self) -> RawType {
        RawType { size: self.size, is_signed: self.is_signed, is_big: self.is_big }
    }

    pub(crate) fn of(raw: RawType) -> Type {
        Type { size: raw.size, is_signed: raw.is_signed, is_big: raw.is_big }
    }
}

/// How the cells of an array are stored.
#[derive(Debug, Clone, PartialEq, Eq)]
pub enum Storage {
    /// In its header.
    Compact,
    /// In one block.
    Contiguous,
    /// In chunks of these sizes, in cells.
    Chunked(Vec<u64>),
}

/// An array.
#[derive(Debug, Clone, PartialEq, Eq)]
pub struct Array {
    pub cell: Type,
    /// The sizes, in cells, with the dimension that runs slowest first.
    pub dims: Vec<u64>,
    /// The largest sizes; `None` is unlimited.
    pub maxima: Vec<Option<u64>>,
    pub storage: Storage,
    /// The value of a cell that was never written.
    pub fill: i128,
}

/// What stands at a path.
#[derive(Debug, Clone, PartialEq, Eq)]
pub enum About {
    Group,
    Array(Array),
    SoftLink,
}

const ARRAY: u32 = 2;
const SOFT_LINK: u32 = 3;
const COMPACT: u32 = 1;
const CONTIGUOUS: u32 = 2;
pub(crate) const CHUNKED: u32 = 3;

impl About {
    pub(crate) fn of(raw: &RawAbout) -> About {
        match raw.kind {
            ARRAY => About::Array(Array::of(raw)),
            SOFT_LINK => About::SoftLink,
            _ => About::Group,
        }
    }
}

impl Array {
    fn of(raw: &RawAbout) -> Array {
        let rank = raw.rank as usize;
        let cell = Type::of(raw.of);
        Array {
            cell,
            dims: raw.dims[..rank].to_vec(),
            maxima: raw.maxima[..rank].iter().map(|&n| (n != u64::MAX).then_some(n)).collect(),
            storage: match raw.storage {
                COMPACT => Storage::Compact,
                CONTIGUOUS => Storage::Contiguous,
                _ => Storage::Chunked(raw.chunks[..rank].to_vec()),
            },
            fill: number_of(cell, &raw.fill[..cell.size as usize]),
        }
    }
}

/// The number that the bytes of a value stand for.
fn number_of(cell: Type, bytes: &[u8]) -> i128 {
    let high_first: Vec<u8> = if cell.is_big { bytes.to_vec() } else { bytes.iter().rev().copied().collect() };
    let number = high_first.iter().fold(0i128, |sum, &byte| sum << 8 | i128::from(byte));
    let is_negative = cell.is_signed && high_first.first().is_some_and(|&byte| byte >= 0x80);
    if is_negative { number - (1 << (8 * bytes.len())) } else { number }
}

/// The numbers that the bytes of values stand for.
pub(crate) fn numbers_of(cell: Type, bytes: &[u8]) -> Vec<i128> {
    bytes.chunks_exact(usize::from(cell.size)).map(|value| number_of(cell, value)).collect()
}

/// An array to be made, whose cells are values of `T`.
#[derive(Debug, Clone)]
pub struct NewArray<T> {
    pub(crate) dims: Vec<u64>,
    pub(crate) maxima: Vec<u64>,
    pub(crate) storage: u32,
    pub(crate) chunks: Vec<u32>,
    pub(crate) fill: T,
}

impl<T: Value> NewArray<T> {
    fn new(dims: &[u64], storage: u32, chunks: &[u32]) -> Self {
        NewArray { dims: dims.to_vec(), maxima: dims.to_vec(), storage, chunks: chunks.to_vec(), fill: T::default() }
    }

    /// An array with its cells in its header.
    pub fn compact(dims: &[u64]) -> Self {
        Self::new(dims, COMPACT, &[])
    }

    /// An array with its cells in one block.
    pub fn contiguous(dims: &[u64]) -> Self {
        Self::new(dims, CONTIGUOUS, &[])
    }

    /// An array with its cells in chunks of these sizes.
    pub fn chunked(dims: &[u64], chunks: &[u32]) -> Self {
        Self::new(dims, CHUNKED, chunks)
    }

    /// With these largest sizes, of which `None` is unlimited. Only an array in chunks may have others than its sizes.
    pub fn maxima(mut self, maxima: &[Option<u64>]) -> Self {
        self.maxima = maxima.iter().map(|n| n.unwrap_or(u64::MAX)).collect();
        self
    }

    /// With this value in each cell that was never written.
    pub fn fill(mut self, fill: T) -> Self {
        self.fill = fill;
        self
    }

    pub(crate) fn fill_bytes(&self) -> &[u8] {
        bytes_of(core::slice::from_ref(&self.fill))
    }
}
