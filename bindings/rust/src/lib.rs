//! HDF5 files of whole-number arrays, by the proved library libh5i.
//!
//! ```
//! use h5i::{Fault, NewArray, Session, Slab};
//!
//! # fn main() -> Result<(), Fault> {
//! let mut session = Session::create()?;
//! session.create_group("/run")?;
//! session.create_array("/run/times", &NewArray::<i32>::chunked(&[4, 6], &[2, 3]).maxima(&[None, Some(6)]).fill(-1))?;
//! let columns = Slab::new(&[1, 0], &[2, 3]).stride(&[1, 2]);
//! let view = session.open_view("/run/times", &columns)?;
//! session.write("/run/times", &columns, &[10i16, 20, 30, 40, 50, 60])?;
//! assert_eq!(session.show::<i32>(view)?, [10, 20, 30, 40, 50, 60]);
//! assert_eq!(session.read::<i32>("/run/times", &Slab::new(&[1, 0], &[1, 3]))?, [10, -1, 20]);
//! let image = session.image()?;
//! assert_eq!(Session::open(&image)?.names("/")?.collect::<Vec<_>>(), [b"run"]);
//! # Ok(())
//! # }
//! ```
//!
//! A [`Session`] is a file in memory, with the views that are open on it. Files of the system stay with you.

mod about;
mod fault;
mod raw;
mod session;
mod value;

pub use about::{About, Array, NewArray, Storage, Type};
pub use fault::Fault;
pub use session::{Attribute, Names, Session, Slab, View};
pub use value::Value;
