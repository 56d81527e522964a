//! Sessions.

use crate::about::{numbers_of, About, Array, NewArray, Type};
use crate::fault::{of_open, Fault};
use crate::raw::{self, RawAbout, Slot};
use crate::value::{bytes_of, bytes_of_mut, Value};
use std::fmt;

/// A file in memory, with the views that are open on it. It stays on its thread.
pub struct Session(Slot);

/// The number of an open view.
#[derive(Debug, Clone, Copy, PartialEq, Eq, Hash)]
pub struct View(u32);

/// A selection of an array's cells (H5Sselect_hyperslab): in each dimension `count` blocks of `block` cells, `stride` apart, from `start` on.
#[derive(Debug, Clone, PartialEq, Eq)]
pub struct Slab {
    start: Vec<u64>,
    stride: Vec<u64>,
    count: Vec<u64>,
    block: Vec<u64>,
}

impl Slab {
    /// The cells from `start` on, `count` in each dimension.
    pub fn new(start: &[u64], count: &[u64]) -> Slab {
        Slab { start: start.to_vec(), stride: vec![1; start.len()], count: count.to_vec(), block: vec![1; start.len()] }
    }

    /// All cells of an array.
    pub fn all(array: &Array) -> Slab {
        Slab::new(&vec![0; array.dims.len()], &array.dims)
    }

    /// With blocks this far apart.
    pub fn stride(mut self, stride: &[u64]) -> Slab {
        self.stride = stride.to_vec();
        self
    }

    /// With blocks of so many cells.
    pub fn block(mut self, block: &[u64]) -> Slab {
        self.block = block.to_vec();
        self
    }

    /// How many cells are selected, if a `usize` counts them.
    fn cells(&self) -> Option<usize> {
        let sizes = self.count.iter().chain(&self.block);
        if self.count.iter().chain(&self.block).any(|&n| n == 0) {
            return Some(0);
        }
        sizes.map(|&n| usize::try_from(n).ok()).try_fold(1usize, |product, n| product.checked_mul(n?))
    }
}

/// An attribute: its type, its sizes, and the bytes of its values.
#[derive(Debug, Clone, PartialEq, Eq)]
pub struct Attribute {
    pub cell: Type,
    pub dims: Vec<u64>,
    pub bytes: Vec<u8>,
}

impl Attribute {
    /// Its values as numbers, in row-major order.
    pub fn numbers(&self) -> Vec<i128> {
        numbers_of(self.cell, &self.bytes)
    }
}

/// Names, in ascending order of their bytes.
#[derive(Debug, Clone)]
pub struct Names {
    text: Vec<u8>,
    at: usize,
}

impl Iterator for Names {
    type Item = Vec<u8>;

    fn next(&mut self) -> Option<Vec<u8>> {
        let rest = self.text.get(self.at..)?;
        let end = rest.iter().position(|&byte| byte == 0)?;
        self.at += end + 1;
        Some(rest[..end].to_vec())
    }
}

/// `Ok` where a call is done.
fn done(status: u32) -> Result<(), Fault> {
    if status == 0 { Ok(()) } else { Err(Fault::of(status)) }
}

/// So many zeros, if there is memory for them.
fn zeros<T: Value>(count: usize) -> Result<Vec<T>, Fault> {
    let mut list = Vec::new();
    list.try_reserve_exact(count).map_err(|_| Fault::NoMemory)?;
    list.resize(count, T::default());
    Ok(list)
}

// SAFETY of each call below: the slot is open, and used by this call alone. It is moved, but never copied. Each slice is passed as its pointer
// and length, and what a call writes is borrowed for it alone.
impl Session {
    /// A session of the empty file.
    pub fn create() -> Result<Session, Fault> {
        let mut session = Session(Slot::CLOSED);
        done(unsafe { raw::h5i_create(&mut session.0) })?;
        Ok(session)
    }

    /// A session of the file that these bytes are, up to their end of file address. They are copied.
    pub fn open(bytes: &[u8]) -> Result<Session, Fault> {
        let (mut session, mut address) = (Session(Slot::CLOSED), 0);
        match unsafe { raw::h5i_open(&mut session.0, bytes.as_ptr(), bytes.len(), &mut address) } {
            0 => Ok(session),
            status => Err(of_open(status, address)),
        }
    }

    /// The bytes of the file.
    pub fn image(&mut self) -> Result<Vec<u8>, Fault> {
        let mut room = zeros(unsafe { raw::h5i_image_length(&mut self.0) })?;
        done(unsafe { raw::h5i_image(&mut self.0, room.as_mut_ptr(), room.len()) })?;
        Ok(room)
    }

    /// Runs the lines of a script (docs/SCRIPT.md), and gives their answers. A line that is refused changes nothing, and the next one is run. On
    /// `Err` the first lines were run.
    pub fn run(&mut self, script: &[u8]) -> Result<Vec<u8>, Fault> {
        done(unsafe { raw::h5i_run(&mut self.0, script.as_ptr(), script.len()) })?;
        self.text()
    }

    fn text(&mut self) -> Result<Vec<u8>, Fault> {
        let mut room = zeros(unsafe { raw::h5i_text_length(&mut self.0) })?;
        done(unsafe { raw::h5i_text(&mut self.0, room.as_mut_ptr(), room.len()) })?;
        Ok(room)
    }

    /// What stands at the path. A soft link is not followed.
    pub fn about(&mut self, path: impl AsRef<[u8]>) -> Result<About, Fault> {
        let (path, mut about) = (path.as_ref(), RawAbout::NONE);
        done(unsafe { raw::h5i_stat(&mut self.0, path.as_ptr(), path.len(), &mut about) })?;
        Ok(About::of(&about))
    }

    /// The number of the object at the path, which it keeps while the session is open.
    pub fn number(&mut self, path: impl AsRef<[u8]>) -> Result<u32, Fault> {
        let (path, mut number) = (path.as_ref(), 0);
        done(unsafe { raw::h5i_number(&mut self.0, path.as_ptr(), path.len(), &mut number) })?;
        Ok(number)
    }

    /// The names in the group at the path.
    pub fn names(&mut self, path: impl AsRef<[u8]>) -> Result<Names, Fault> {
        let path = path.as_ref();
        done(unsafe { raw::h5i_list(&mut self.0, path.as_ptr(), path.len()) })?;
        Ok(Names { text: self.text()?, at: 0 })
    }

    /// The text of the soft link at the path.
    pub fn link_text(&mut self, path: impl AsRef<[u8]>) -> Result<Vec<u8>, Fault> {
        let path = path.as_ref();
        done(unsafe { raw::h5i_link_text(&mut self.0, path.as_ptr(), path.len()) })?;
        self.text()
    }

    /// The names of the attributes of the object at the path.
    pub fn attribute_names(&mut self, path: impl AsRef<[u8]>) -> Result<Names, Fault> {
        let path = path.as_ref();
        done(unsafe { raw::h5i_attributes(&mut self.0, path.as_ptr(), path.len()) })?;
        Ok(Names { text: self.text()?, at: 0 })
    }

    /// An attribute of the object at the path.
    pub fn attribute(&mut self, path: impl AsRef<[u8]>, name: impl AsRef<[u8]>) -> Result<Attribute, Fault> {
        let (path, name, mut about) = (path.as_ref(), name.as_ref(), RawAbout::NONE);
        done(unsafe { raw::h5i_attribute(&mut self.0, path.as_ptr(), path.len(), name.as_ptr(), name.len(), &mut about) })?;
        let (cell, dims) = (Type::of(about.of), about.dims[..about.rank as usize].to_vec());
        let length = dims.iter().map(|&n| n as usize).product::<usize>() * usize::from(cell.size);
        let mut bytes = zeros(length)?;
        done(unsafe { raw::h5i_attribute_values(&mut self.0, path.as_ptr(), path.len(), name.as_ptr(), name.len(), bytes.as_mut_ptr(), length) })?;
        Ok(Attribute { cell, dims, bytes })
    }

    /// Reads the selected cells of the array at the path, in row-major order, into `room`. They are copied once, straight from the image.
    ///
    /// `WrongRoom`: its values are not of the type of the cells, or are not as many.
    pub fn read_into<T: Value>(&mut self, path: impl AsRef<[u8]>, slab: &Slab, room: &mut [T]) -> Result<(), Fault> {
        let path = path.as_ref();
        if let About::Array(array) = self.about(path)? {
            if !is_same(array.cell, T::TYPE) {
                return Err(Fault::WrongRoom);
            }
        }
        let (s, room) = (slab, bytes_of_mut(room));
        done(unsafe {
            raw::h5i_read(
                &mut self.0, path.as_ptr(), path.len(), s.start.as_ptr(), s.start.len(), s.stride.as_ptr(), s.stride.len(), s.count.as_ptr(),
                s.count.len(), s.block.as_ptr(), s.block.len(), room.as_mut_ptr(), room.len(),
            )
        })
    }

    /// Reads the selected cells of the array at the path, in row-major order, which are values of `T`.
    pub fn read<T: Value>(&mut self, path: impl AsRef<[u8]>, slab: &Slab) -> Result<Vec<T>, Fault> {
        let About::Array(array) = self.about(path.as_ref())? else {
            return Err(Fault::NotADataset);
        };
        // No more cells are taken memory for than the array has.
        let most = array.dims.iter().try_fold(1u64, |product, &n| product.checked_mul(n));
        let wanted = slab.cells().filter(|&n| most.is_some_and(|most| n as u64 <= most));
        let mut room = zeros(wanted.unwrap_or(0))?;
        self.read_into(path, slab, &mut room)?;
        Ok(room)
    }

    /// Reads all cells of the array at the path as numbers, in row-major order, whatever their type is.
    pub fn read_numbers(&mut self, path: impl AsRef<[u8]>) -> Result<Vec<i128>, Fault> {
        let path = path.as_ref();
        let About::Array(array) = self.about(path)? else {
            return Err(Fault::NotADataset);
        };
        let cells = Slab::all(&array).cells().and_then(|n| n.checked_mul(usize::from(array.cell.size)));
        let (s, mut room) = (Slab::all(&array), zeros(cells.ok_or(Fault::NoMemory)?)?);
        done(unsafe {
            raw::h5i_read(
                &mut self.0, path.as_ptr(), path.len(), s.start.as_ptr(), s.start.len(), s.stride.as_ptr(), s.stride.len(), s.count.as_ptr(),
                s.count.len(), s.block.as_ptr(), s.block.len(), room.as_mut_ptr(), room.len(),
            )
        })?;
        Ok(numbers_of(array.cell, &room))
    }

    /// Whether something stands at the path: a group, an array or a soft link.
    pub fn contains(&mut self, path: impl AsRef<[u8]>) -> bool {
        self.about(path).is_ok()
    }

    /// Creates an empty group.
    pub fn create_group(&mut self, path: impl AsRef<[u8]>) -> Result<(), Fault> {
        let path = path.as_ref();
        done(unsafe { raw::h5i_create_group(&mut self.0, path.as_ptr(), path.len()) })
    }

    /// Creates an array.
    pub fn create_array<T: Value>(&mut self, path: impl AsRef<[u8]>, new: &NewArray<T>) -> Result<(), Fault> {
        let (path, fill) = (path.as_ref(), new.fill_bytes());
        done(unsafe {
            raw::h5i_create_array(
                &mut self.0, path.as_ptr(), path.len(), T::TYPE.raw(), new.dims.as_ptr(), new.dims.len(), new.maxima.as_ptr(), new.maxima.len(),
                new.storage, new.chunks.as_ptr(), new.chunks.len(), fill.as_ptr(), fill.len(),
            )
        })
    }

    /// Gives the array at `target` a second name.
    pub fn hard_link(&mut self, target: impl AsRef<[u8]>, path: impl AsRef<[u8]>) -> Result<(), Fault> {
        let (target, path) = (target.as_ref(), path.as_ref());
        done(unsafe { raw::h5i_hard_link(&mut self.0, target.as_ptr(), target.len(), path.as_ptr(), path.len()) })
    }

    /// Makes a soft link with this text. It is never followed.
    pub fn soft_link(&mut self, text: impl AsRef<[u8]>, path: impl AsRef<[u8]>) -> Result<(), Fault> {
        let (text, path) = (text.as_ref(), path.as_ref());
        done(unsafe { raw::h5i_soft_link(&mut self.0, text.as_ptr(), text.len(), path.as_ptr(), path.len()) })
    }

    /// Takes the link at the path away. A group goes with all that it holds, at any depth; an array goes with its last hard link, and its
    /// views are `Gone` then. One that has a name elsewhere stays.
    pub fn unlink(&mut self, path: impl AsRef<[u8]>) -> Result<(), Fault> {
        let path = path.as_ref();
        done(unsafe { raw::h5i_unlink(&mut self.0, path.as_ptr(), path.len()) })
    }

    /// Sets an attribute of the object at the path, in place of one with the same name: one value for each cell of the sizes.
    pub fn set_attribute<T: Value>(
        &mut self,
        path: impl AsRef<[u8]>,
        name: impl AsRef<[u8]>,
        dims: &[u64],
        values: &[T],
    ) -> Result<(), Fault> {
        let (path, name, bytes) = (path.as_ref(), name.as_ref(), bytes_of(values));
        done(unsafe {
            raw::h5i_set_attribute(
                &mut self.0, path.as_ptr(), path.len(), name.as_ptr(), name.len(), T::TYPE.raw(), dims.as_ptr(), dims.len(), bytes.as_ptr(),
                bytes.len(),
            )
        })
    }

    /// Removes an attribute.
    pub fn remove_attribute(&mut self, path: impl AsRef<[u8]>, name: impl AsRef<[u8]>) -> Result<(), Fault> {
        let (path, name) = (path.as_ref(), name.as_ref());
        done(unsafe { raw::h5i_remove_attribute(&mut self.0, path.as_ptr(), path.len(), name.as_ptr(), name.len()) })
    }

    /// Writes values into the selected cells of the array at the path, in row-major order. Their type need not be that of the cells.
    pub fn write<T: Value>(&mut self, path: impl AsRef<[u8]>, slab: &Slab, values: &[T]) -> Result<(), Fault> {
        let (path, s, bytes) = (path.as_ref(), slab, bytes_of(values));
        done(unsafe {
            raw::h5i_write(
                &mut self.0, path.as_ptr(), path.len(), s.start.as_ptr(), s.start.len(), s.stride.as_ptr(), s.stride.len(), s.count.as_ptr(),
                s.count.len(), s.block.as_ptr(), s.block.len(), T::TYPE.raw(), bytes.as_ptr(), bytes.len(),
            )
        })
    }

    /// Gives an array in chunks other sizes.
    pub fn resize(&mut self, path: impl AsRef<[u8]>, dims: &[u64]) -> Result<(), Fault> {
        let path = path.as_ref();
        done(unsafe { raw::h5i_resize(&mut self.0, path.as_ptr(), path.len(), dims.as_ptr(), dims.len()) })
    }

    /// Writes the image anew, without bytes that nothing uses.
    pub fn repack(&mut self) -> Result<(), Fault> {
        done(unsafe { raw::h5i_repack(&mut self.0) })
    }

    /// Opens a view of the selected cells of the array at the path. It stays with the array, whatever becomes of the path.
    pub fn open_view(&mut self, path: impl AsRef<[u8]>, slab: &Slab) -> Result<View, Fault> {
        let (path, s, mut number) = (path.as_ref(), slab, 0);
        done(unsafe {
            raw::h5i_open_view(
                &mut self.0, path.as_ptr(), path.len(), s.start.as_ptr(), s.start.len(), s.stride.as_ptr(), s.stride.len(), s.count.as_ptr(),
                s.count.len(), s.block.as_ptr(), s.block.len(), &mut number,
            )
        })?;
        Ok(View(number))
    }

    /// The bytes that a view shows now: its cells in row-major order, as they are stored.
    pub fn show_bytes(&mut self, view: View) -> Result<Vec<u8>, Fault> {
        let mut length = 0;
        done(unsafe { raw::h5i_shown_length(&mut self.0, view.0, &mut length) })?;
        let mut room = zeros(length)?;
        done(unsafe { raw::h5i_show(&mut self.0, view.0, room.as_mut_ptr(), length) })?;
        Ok(room)
    }

    /// What a view shows now, whose cells have as many bytes as values of `T`, in the byte order of the machine.
    pub fn show<T: Value>(&mut self, view: View) -> Result<Vec<T>, Fault> {
        let mut length = 0;
        done(unsafe { raw::h5i_shown_length(&mut self.0, view.0, &mut length) })?;
        if length % size_of::<T>() != 0 {
            return Err(Fault::WrongRoom);
        }
        let mut room = zeros::<T>(length / size_of::<T>())?;
        done(unsafe { raw::h5i_show(&mut self.0, view.0, bytes_of_mut(&mut room).as_mut_ptr(), length) })?;
        Ok(room)
    }

    /// Closes a view.
    pub fn close_view(&mut self, view: View) -> Result<(), Fault> {
        done(unsafe { raw::h5i_close_view(&mut self.0, view.0) })
    }
}

/// Whether the bytes of a value are the same in both types.
fn is_same(a: Type, b: Type) -> bool {
    a.size == b.size && a.is_signed == b.is_signed && (a.size == 1 || a.is_big == b.is_big)
}

impl fmt::Debug for Session {
    fn fmt(&self, f: &mut fmt::Formatter<'_>) -> fmt::Result {
        f.debug_struct("Session").finish_non_exhaustive()
    }
}

impl Drop for Session {
    fn drop(&mut self) {
        unsafe { raw::h5i_close(&mut self.0) }
    }
}
