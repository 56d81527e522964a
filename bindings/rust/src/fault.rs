//! Why a call is refused.

use std::fmt;

macro_rules! faults {
    ($($number:literal $name:ident $says:literal)*) => {
        /// Why a call is refused. What is refused has changed nothing, if the call does not say otherwise.
        #[derive(Debug, Clone, Copy, PartialEq, Eq, Hash)]
        #[non_exhaustive]
        pub enum Fault {
            $(#[doc = $says] $name,)*
            /// The bytes break the rule of docs/FORMAT.md that has this number, at this address.
            NotAFile { cause: u32, address: u64 },
        }

        impl Fault {
            /// The fault of a status other than 'done'. A number that the library does not answer is taken for want of memory.
            pub(crate) fn of(status: u32) -> Fault {
                match status {
                    $($number => Fault::$name,)*
                    _ => Fault::NoMemory,
                }
            }

            /// The name of the rule that is broken, or of the cause for which bytes are no file.
            pub fn name(&self) -> &'static str {
                match self {
                    $(Fault::$name => stringify!($name),)*
                    Fault::NotAFile { cause, .. } => CAUSES.get((*cause as usize).wrapping_sub(1)).copied().unwrap_or("NotAFile"),
                }
            }
        }

        impl fmt::Display for Fault {
            fn fmt(&self, f: &mut fmt::Formatter<'_>) -> fmt::Result {
                write!(f, "{}: ", self.name())?;
                match self {
                    $(Fault::$name => f.write_str($says),)*
                    Fault::NotAFile { cause, address } => write!(f, "the bytes break rule {cause} at byte {address}"),
                }
            }
        }
    };
}

faults! {
    1 BadPath "a path does not begin with '/', or has an empty name; or a soft link's text is empty or has a zero byte"
    2 PathTooDeep "a path has more than 64 names"
    3 IsRoot "a link is to be made at, or taken from, '/'"
    4 NoSuchParent "a name before the last is missing"
    5 NotAGroup "a name before the last is no group, or no group is to be listed"
    6 NotFound "the last name is missing, or is a soft link where an object is needed"
    7 AlreadyThere "the new link's name stands already"
    8 NameTooLong "a new name or text has more than 1023 bytes"
    9 NotADataset "a group or a soft link stands where an array is needed"
    10 GroupLink "a hard link's target is a group"
    12 BadSpec "sizes, maxima, chunk sizes or an attribute's name are not of their form"
    13 RankMismatch "a list has not one number for each dimension"
    14 StrideZero "a stride is 0"
    15 BlocksOverlap "a stride is below its block, and there is more than one block"
    16 OutOfExtent "a selected cell is outside the sizes"
    17 NotChunked "only an array in chunks can be resized"
    18 AboveMaximum "a size is above its maximum"
    19 ChunkTooLarge "a chunk has more than 1073741824 bytes"
    20 CompactTooLarge "compact cells have more than 65524 bytes"
    21 TooManyCells "the product of the sizes other than 0 is above 2^40"
    22 ValueCount "there is not one value for each cell"
    23 ValueRange "a value, or the fill, is not of the type"
    24 AttributeTooLarge "the message of the attribute would have more than 65528 bytes"
    25 NoSuchAttribute "no attribute has the name"
    26 TooManyLinks "65535 hard links lead to the array"
    27 TooManyObjects "no number of an object is left"
    28 HeaderFull "the header has as many messages as it can"
    29 TreeTooDeep "a group's tree would have more than 16 levels"
    30 ImageFull "the image would have more than 2147483648 bytes"
    31 NoMemory "memory was refused"
    101 WrongRoom "the values have another type than the cells, or another number"
    103 ScriptTooLong "the script has more than 16777216 bytes"
    104 NotASoftLink "a group or an array stands where a soft link is needed"
    201 NoSuchView "no open view has the number"
    202 Gone "the view's array was deleted"
    203 OutsideNow "a selected cell is outside the sizes for now"
    204 TooManyViews "1024 views are open, or the numbers are used up"
}

impl std::error::Error for Fault {}

/// The causes for which bytes are no file, by their numbers, from 1 on (docs/FORMAT.md).
const CAUSES: [&str; 36] = [
    "NotHdf5", "Truncated", "SuperblockVersion", "FieldSizes", "BaseAddress", "Driver", "KRange", "HeaderVersion", "MessageSize", "MessageCount",
    "SharedMessage", "UnknownMessage", "Filtered", "ExternalFiles", "NewStyleGroup", "MissingMessage", "DuplicateMessage", "DataspaceForm",
    "DatatypeForm", "FillForm", "LayoutForm", "AttributeForm", "HeapForm", "HeapName", "NodeForm", "NameOrder", "KeyOrder", "Sibling", "ChunkKey",
    "LinkCount", "GroupLinkedTwice", "Overlap", "TooDeep", "TooLarge", "BadName", "NoMemory",
];

/// Bytes were refused as a file for want of memory, or for the cause.
pub(crate) fn of_open(status: u32, address: u64) -> Fault {
    match status.checked_sub(300) {
        Some(cause) if cause > 0 => Fault::NotAFile { cause, address },
        _ => Fault::of(status),
    }
}
