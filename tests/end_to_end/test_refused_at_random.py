"""Refused memory at random: the cases of tests/fuzz, in which calls of the library for C meet refused allocations before they are done.

A call that is refused for memory has changed nothing. It is made again, at last without a refusal, and then held to the reference.
"""

import os
import random
import signal
from collections import Counter
from datetime import date
from itertools import count
from time import monotonic
from unittest import mock

from . import fuzz_command, today
from .libh5i import CAUSES, Opened
from .packed import Packed, is_older
from .refusing import ANSWERED, BROKEN_OFF, NO_MEMORY, NONE, VIEW_ANSWERED, Refusing, state
from .support import TOP

DATA = os.path.join(TOP, "tests", "data")
SECONDS = 12
FEWEST, MOST_BYTES = 10, 30000
# So many allocations of a call are refused at most; the views that are looked at; and how many allocations a call may take at first.
TRIES, VIEWS, AT_FIRST = 4, 8, 4
TAKE_NONE = ("image_length", "image", "text_length", "text", "shown_length", "show")
# What is answered in place of the library's status where it is not right.
CHANGED = 999


class Forgetful(Opened):
    """A session whose calls meet refused allocations."""

    def __init__(self, library, session, rng):
        super().__init__(library.calls, session.slot)
        self.library, self.rng, self.most = library, rng, AT_FIRST

    def call(self, name, *words):
        if name in TAKE_NONE:
            return super().call(name, *words)
        before = state(self, VIEWS)
        for _ in range(TRIES):
            after = self.rng.randrange(self.most)
            self.library.refuse(after)
            status = super().call(name, *words)
            left = self.library.refuse(NONE)
            # Most of the allocations that are drawn should be asked for, and some should be late ones.
            self.most = self.most + 2 if left == NONE else max(2, self.most - left)
            if not self.is_refused(name, status):
                return status if left == NONE or status != NO_MEMORY else CHANGED
            self.library.told[name] += 1
            if state(self, VIEWS) != before:
                return CHANGED
        return super().call(name, *words)

    def is_refused(self, name, status):
        """Whether a call was refused for memory."""
        if name != "run":
            return status == NO_MEMORY
        return b"status %d" % status == BROKEN_OFF or status == 0 and self.taken("text") in (ANSWERED, VIEW_ANSWERED)


class Library(Refusing):
    """The library, whose sessions are such."""

    def __init__(self, *words):
        super().__init__(*words)
        self.told = Counter()

    def opened(self, image):
        rng = random.Random(len(image))
        for _ in range(TRIES):
            self.refuse(rng.randrange(40))
            session, refused = super().opened(image)
            self.refuse(NONE)
            if session:
                session.close()
            elif refused[0] + CAUSES != NO_MEMORY:
                break
        session, refused = super().opened(image)
        if session is None:
            return None, refused
        # The text of answers has grown before, so that a line that has run never lacks room for its own.
        session.run(b"x\n" * 1000)
        return Forgetful(self, session, rng), None


class RefusedAtRandom(Packed):
    """What differs on this day."""

    def test_cases_of_the_day(self):
        library, images = Library(self.archive, self.folder), []
        for name in sorted(os.listdir(DATA)):
            if name.endswith(".h5") and os.path.getsize(os.path.join(DATA, name)) <= MOST_BYTES:
                images.append(fuzz_command.read(os.path.join(DATA, name)))
        first, until, held = int(f"{date.today():%Y%m%d}") * 1000000, monotonic() + SECONDS, library.held()
        print(f"Seeds from {first} on.")
        signal.signal(signal.SIGALRM, fuzz_command.slow)
        # Where an edit is made is judged without refused memory, by the other cases of tests/fuzz.
        self.enterContext(mock.patch.object(today, "wrong_with", lambda *_: []))
        for seed in count(first):
            found, passed = fuzz_command.judged(seed, images if seed % 2 else [], library, None)
            self.assertTrue(found is None or is_older(), f"seed {seed}: {found}")
            if passed is None:
                self.assertEqual(library.held(), held, f"seed {seed}: blocks are still held")
            else:
                held = library.held()
            if monotonic() > until and seed - first > FEWEST:
                break
        print(f"{seed - first + 1} cases, {library.told.total()} refused calls: {dict(library.told)}")
        self.assertGreater(library.told.total(), 100)
