//! Whole numbers, as values of cells.

use crate::about::Type;

/// A whole number of Rust's, whose bytes in memory are those of a type of cells.
///
/// # Safety
///
/// Each pattern of `size_of::<Self>()` bytes is a value, there is no padding, and `TYPE` is the type of which it is one, in the byte order of the
/// machine.
pub unsafe trait Value: Copy + Default + 'static {
    /// The type.
    const TYPE: Type;
}

macro_rules! values {
    ($($type:ty, $signed:literal;)*) => {$(
        // SAFETY: an integer of Rust's has no padding and no pattern that is no value.
        unsafe impl Value for $type {
            const TYPE: Type = Type { size: size_of::<$type>() as u8, is_signed: $signed, is_big: cfg!(target_endian = "big") && size_of::<$type>() > 1 };
        }
    )*};
}

values! { i8, true; u8, false; i16, true; u16, false; i32, true; u32, false; i64, true; u64, false; }

/// The bytes of values.
pub(crate) fn bytes_of<T: Value>(values: &[T]) -> &[u8] {
    // SAFETY: a value has no padding, and any address is aligned for bytes.
    unsafe { core::slice::from_raw_parts(values.as_ptr().cast(), size_of_val(values)) }
}

/// The bytes of values, to be written.
pub(crate) fn bytes_of_mut<T: Value>(values: &mut [T]) -> &mut [u8] {
    // SAFETY: a value has no padding, any bytes are values, and any address is aligned for bytes.
    unsafe { core::slice::from_raw_parts_mut(values.as_mut_ptr().cast(), size_of_val(values)) }
}
