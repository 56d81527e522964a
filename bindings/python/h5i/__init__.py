"""HDF5 files of whole-number arrays, in the form of h5py, by the proved library libh5i.

    with h5i.File("c.h5", "w") as file:
        times = file.create_dataset("run/times", shape=(3, 4), dtype="u1", chunks=(2, 3), maxshape=(None, 4))
        times[::2, 1:3] = 7
        view = times.view[:, 1]         # live: it shows each edit
        times.resize((5, 4))
        times.attrs["unit"] = [109, 115]
        view[...]

A file is in memory as a whole. It is written to its place by `flush`, `close`, the end of a `with`, or the end of Python;
`File(None, "w")`, `File.tobytes` and `File.frombytes` go without a place. What a call refuses has changed nothing, and the
exception names the rule (`Refused.rule`). numpy arrays go in and come out without a copy of this module's own.

Other than in h5py, a soft link is told (`SoftLink`) and not followed, a value that is none of the type is refused and not
clipped, and a `Dataset` or `Group` is what stands at its path now.
"""

from ._file import File
from ._library import NotAFile, Refused
from ._objects import AttributeManager, Dataset, Group, SoftLink
from ._views import View

__all__ = ["AttributeManager", "Dataset", "File", "Group", "NotAFile", "Refused", "SoftLink", "View"]
__version__ = "0.1.0"
