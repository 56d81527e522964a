"""The library for C, called without numpy: an image in, script lines and edits on it, selected cells and an image out."""

import ctypes as c

from . import today  # noqa: F401  (makes the reference's modules known)

# pylint: disable=wrong-import-order
from h5oracle import model  # noqa: E402
from h5oracle.values import Fixed, product  # noqa: E402

GROUP, SOFT_LINK = 1, 3
STORES = {"compact": 1, "contiguous": 2, "chunked": 3}
UNLIMITED = (1 << 64) - 1
TYPES = [Fixed(size, signed, big) for size in (1, 2, 4, 8) for signed in (False, True) for big in (False, True)[:size]]
# The statuses of bytes that are no file begin behind this one.
CAUSES = 300


class Slot(c.Structure):
    """A session's place. All zeros are a closed one."""

    _fields_ = [("is_open", c.c_bool), ("at", c.c_void_p)]


class Type(c.Structure):
    """A type of whole numbers."""

    _fields_ = [("size", c.c_uint8), ("is_signed", c.c_bool), ("is_big", c.c_bool)]


class About(c.Structure):
    """What stands at a path, or an attribute."""

    _fields_ = [("kind", c.c_uint32), ("storage", c.c_uint32), ("rank", c.c_uint32), ("type", Type), ("fill", c.c_uint8 * 8),
                ("dims", c.c_uint64 * 32), ("maxima", c.c_uint64 * 32), ("chunks", c.c_uint64 * 32)]

    def sizes(self, name):
        """One of its lists."""
        return tuple(getattr(self, name)[:self.rank])

    def fixed(self):
        """Its type as the reference has it."""
        return Fixed(self.type.size, self.type.is_signed, self.type.is_big)


def type_of(fixed):
    """A type of the reference's for the library."""
    return Type(fixed.size, fixed.signed, fixed.big)


def given(raw):
    """Bytes as a pointer and a length."""
    return c.c_char_p(raw), c.c_size_t(len(raw))


def listed(numbers, word=c.c_uint64):
    """Numbers as a pointer and a length."""
    return (word * len(numbers))(*numbers), c.c_size_t(len(numbers))


def slab(hyper):
    """The four lists of a selection."""
    return [word for numbers in (hyper.start, hyper.stride, hyper.count, hyper.block) for word in listed(numbers)]


def common_type(values):
    """A type that has all of these values, or `None`. Which one depends on the values, so that all forms of them are written."""
    types = [fixed for fixed in TYPES if all(map(fixed.holds, values))]
    return types[sum(values) % len(types)] if types else None


class Library:
    """libh5i, of a file."""

    def __init__(self, path):
        self.calls = c.CDLL(path)
        for name in ("h5i_image_length", "h5i_text_length"):
            getattr(self.calls, name).restype = c.c_size_t

    def opened(self, image):
        """A session of the file that the image is and `None`, or `None` and the number of the cause and its place."""
        slot, place = Slot(), c.c_uint64()
        status = self.calls.h5i_open(c.byref(slot), *given(image), c.byref(place))
        return (Opened(self.calls, slot), None) if status == 0 else (None, (status - CAUSES, place.value))


class Opened:
    """An open session."""

    def __init__(self, calls, slot):
        self.calls, self.slot = calls, slot

    def call(self, name, *words):
        """What a call on the session answers."""
        return getattr(self.calls, "h5i_" + name)(c.byref(self.slot), *words)

    def taken(self, name):
        """The bytes that the session gives out under a name: its image, or its text."""
        room = c.create_string_buffer(self.call(name + "_length"))
        status = self.call(name, room, c.c_size_t(len(room)))
        return room.raw if status == 0 else f"status {status}".encode()

    def run(self, script):
        """The answers to a script."""
        status = self.call("run", *given(script))
        return self.taken("text") if status == 0 else f"status {status}".encode()

    def image(self):
        """The bytes of the file."""
        return self.taken("image")

    def read(self, path, hyper, length):
        """The status of a read of selected cells into so many bytes, and the bytes."""
        room = c.create_string_buffer(length)
        return self.call("read", *given(path), *slab(hyper), room, c.c_size_t(length)), room.raw

    def told(self, name, *words):
        """The text that a call leaves, or its status."""
        status = self.call(name, *words)
        return self.taken("text") if status == 0 else status

    def asked(self, path):
        """What stands at a path, by each call that asks: in the form of `fuzzing.asked_of`. A status where one is refused."""
        about = About()
        status = self.call("stat", *given(path), c.byref(about))
        if status:
            return status
        if about.kind == SOFT_LINK:
            return "soft link", self.told("link_text", *given(path))
        attributes = self.told("attributes", *given(path))
        if isinstance(attributes, bytes):
            attributes = [self.attribute(path, name) for name in attributes.split(b"\0")[:-1]]
        if about.kind == GROUP:
            return "group", self.told("list", *given(path)), attributes
        store = next(name for name, number in STORES.items() if number == about.storage)
        maxima = tuple(None if most == UNLIMITED else most for most in about.sizes("maxima"))
        chunk = about.sizes("chunks") if store == "chunked" else None
        fixed = about.fixed()
        return "array", fixed, about.sizes("dims"), maxima, store, chunk, fixed.decode(bytes(about.fill)[:fixed.size]), attributes

    def attribute(self, path, name):
        """An attribute: its name, type, sizes and stored bytes, or a status."""
        about = About()
        status = self.call("attribute", *given(path), *given(name), c.byref(about))
        room = c.create_string_buffer(product(about.sizes("dims")) * about.type.size)
        status = status or self.call("attribute_values", *given(path), *given(name), room, c.c_size_t(len(room)))
        return status or (name, about.fixed(), about.sizes("dims"), room.raw)

    def edit(self, edit):
        """The status of an edit by a call of its own, or `None` where no call can be given its values."""
        words = words_of(edit)
        return None if words is None else self.call(*words)

    def close(self):
        """Gives the session up."""
        self.call("close")


def words_of(edit):
    """The call of an edit, and what it is given; `None` where a value is of no type that can be named, or a maximum of 2^64 - 1 is a size."""
    path = given(edit.path)
    match edit:
        case model.CreateGroup():
            return "create_group", *path
        case model.HardLink():
            return "hard_link", *given(edit.target), *path
        case model.SoftLink():
            return "soft_link", *given(edit.text), *path
        case model.Unlink():
            return "unlink", *path
        case model.RemoveAttr():
            return "remove_attribute", *path, *given(edit.name)
        case model.Resize():
            return "resize", *path, *listed(edit.dims)
        case model.SetAttr(attr=attr) if all(map(attr.fixed.holds, attr.values)):
            values = b"".join(map(attr.fixed.encode, attr.values))
            return "set_attribute", *path, *given(attr.name), type_of(attr.fixed), *listed(attr.dims), *given(values)
        case model.Write() if fixed := common_type(edit.values):
            return "write", *path, *slab(edit.hyper), type_of(fixed), *given(b"".join(map(fixed.encode, edit.values)))
        case model.CreateDataset(spec=spec) if spec.fixed.holds(spec.fill) and UNLIMITED not in spec.maxima:
            maxima = [UNLIMITED if most is None else most for most in spec.maxima]
            chunks = listed(spec.chunk or (), c.c_uint32)
            fill = given(spec.fixed.encode(spec.fill))
            return "create_array", *path, type_of(spec.fixed), *listed(spec.dims), *listed(maxima), c.c_uint32(STORES[spec.store]), *chunks, *fill
    return None
