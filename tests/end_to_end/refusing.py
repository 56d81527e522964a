"""The library for C over an allocator of which one allocation is refused, and scripts that run on it line by line, held to the reference."""

import ctypes as c
import functools
import os
import shutil

from . import today
from .libh5i import CAUSES, Library, given
from .support import run_command

SOURCE = os.path.join(os.path.dirname(os.path.abspath(__file__)), "refusing.c")
FLAGS = ("-shared", "-fPIC", "-O2", "-Wall", "-Wextra", "-Werror")
# The status of a call that is refused for memory; those of views' faults begin behind this one.
NO_MEMORY, VIEW_FAULTS = 31, 200
# None of the allocations is refused.
NONE = -1
ANSWERED, VIEW_ANSWERED = b"refused 31 NoMemory\n", b"fault 5 NoMemory\n"
# A run that breaks off since its own buffers, or the text of its answers, cannot grow.
BROKEN_OFF = b"status 31"


def compiled(*words):
    """Runs the C compiler."""
    if shutil.which("cc") is None:
        raise AssertionError("there is no C compiler: these tests want the command cc, of gcc or clang")
    status, _, errors = run_command("cc", *words)
    if status:
        raise AssertionError(errors.decode("utf-8", "replace"))


def preloaded(folder):
    """The path of the allocator by itself, for a program. What stands in its variable REFUSED is refused."""
    path = os.path.join(folder, "refusing.so")
    compiled(*FLAGS, "-o", path, SOURCE)
    return path


class Refusing(Library):
    """The library of an archive, over the allocator."""

    def __init__(self, archive, folder):
        path = os.path.join(folder, "libh5i-refusing.so")
        compiled(*FLAGS, "-fvisibility=hidden", "-o", path, SOURCE, "-Wl,--whole-archive", archive, "-Wl,--no-whole-archive")
        super().__init__(path)
        for name in ("refuse", "asked_for", "blocks_held"):
            getattr(self.calls, name).restype = c.c_long

    def refuse(self, after):
        """Refuses one allocation behind so many, or none where it is below 0: how many were left before."""
        return self.calls.refuse(c.c_long(after))

    def asked_for(self):
        """How many allocations were asked for so far."""
        return self.calls.asked_for()

    def held(self):
        """How many blocks are held."""
        return self.calls.blocks_held()


def shown(session, view):
    """The status of what a view shows, and its bytes."""
    length = c.c_size_t()
    status = session.call("shown_length", c.c_uint32(view), c.byref(length))
    room = c.create_string_buffer(length.value)
    return (status or session.call("show", c.c_uint32(view), room, c.c_size_t(len(room)))), room.raw


def state(session, views):
    """The image of a session, and what so many views show."""
    return session.image(), [shown(session, view) for view in range(views)]


class Wanted:
    """What the reference answers to lines on an image, and holds behind them."""

    def __init__(self, image, lines):
        self.image, self.lines = image, lines
        self.without, self.unlike = functools.cache(self.ran_without), functools.cache(self.unlike_without)

    def ran_without(self, left_out):
        """The answers where one line is left out, and the session behind them."""
        session = today.session_of(self.image)
        return [None if at == left_out else today.answers(session, line + b"\n")[0] for at, line in enumerate(self.lines)], session

    def unlike_without(self, left_out, image):
        """What is wrong with an image as the one behind these lines."""
        reading, refusal = today.opened(image)
        return refusal or today.same_tree(reading.tree, self.without(left_out)[1].tree)


def numbers(session):
    """The number of the object at each path that leads to one, by the reference's session."""
    for names, link in session.tree.walk():
        if link[0] == "object":
            yield b"/" + b"/".join(names), link[1]


def number_at(session, path):
    """That of the library."""
    number = c.c_uint32()
    status = session.call("number", *given(path), c.byref(number))
    return number.value if status == 0 else f"status {status}"


def shown_by(session, view):
    """What `shown` should find by the reference."""
    kind, *found = session.show(view)
    if kind == "fault":
        return VIEW_FAULTS + found[0], b""
    fixed = session.tree.objects[session.views[view][0]].fixed
    return 0, b"".join(map(fixed.encode, found[1]))


class Run:
    """One run of lines on an image, one allocation of which is refused."""

    def __init__(self, library, wanted, after):
        self.library, self.wanted, self.after = library, wanted, after
        self.views = sum(line.startswith(b"view ") for line in wanted.lines) + 1
        # The line that was refused, how it was, and what was answered to the others: `None` where no answer is left.
        self.refused, self.how, self.answers = None, None, []

    def was_refused(self):
        """Whether the allocation was refused: else it was never asked for."""
        return self.library.refuse(NONE) == NONE

    def opened(self):
        """The session. Where the refused allocation is one of opening, it opens at the second time."""
        self.library.refuse(self.after)
        session, refused = self.library.opened(self.wanted.image)
        if refused is None:
            return session
        if refused[0] + CAUSES != NO_MEMORY or self.library.refuse(NONE) != NONE:
            raise AssertionError(f"opening is refused: {refused}")
        self.how = "opening"
        return self.library.opened(self.wanted.image)[0]

    def wrong(self):
        """What is wrong with it, or `None`."""
        held = self.library.held()
        session = self.opened()
        for line in self.wanted.lines:
            found = self.wrong_at(session, line)
            if found:
                return f"{line[:80]}: {found}"
        left = self.library.refuse(NONE)
        found = self.wrong_behind(session)
        self.library.refuse(left)
        session.close()
        return found or (None if self.library.held() == held else f"{self.library.held() - held} blocks are still held")

    def wrong_at(self, session, line):
        """What is wrong where a line is refused for memory. The answers of all others are looked at behind the last."""
        left = self.library.refuse(NONE)
        before = state(session, self.views)
        self.library.refuse(left)
        answer = session.run(line + b"\n")
        if answer not in (ANSWERED, VIEW_ANSWERED, BROKEN_OFF):
            self.answers.append(answer)
            return None
        if left == NONE or self.library.refuse(NONE) != NONE:
            return f"it answers {answer}, and no allocation was refused"
        is_as_before = state(session, self.views) == before
        self.refused, self.how = len(self.answers) if is_as_before else None, answer
        self.answers.append(None)
        if not is_as_before and answer != BROKEN_OFF:
            return "it is refused, and has changed the session"
        right = VIEW_ANSWERED if line.startswith(b"view ") else ANSWERED
        return None if answer in (right, BROKEN_OFF) else f"it answers {answer}"

    def wrong_behind(self, session):
        """What is wrong behind all lines, and with their answers."""
        answers, theirs = self.wanted.without(self.refused)
        for line, ours, right in zip(self.wanted.lines, self.answers, answers):
            if ours is not None and ours != right:
                return f"{line[:80]}: the library answers {ours[:200]}, the reference {right[:200]}"
        image, seen = state(session, self.views)
        if seen != [shown_by(theirs, view) for view in range(self.views)]:
            return f"the views show {seen}"
        if any(number_at(session, path) != number for path, number in numbers(theirs)):
            return "an object has another number"
        return self.wanted.unlike(self.refused, image)
