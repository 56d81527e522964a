"""Looks over the texts of edits without any proof: that each can be applied, and changes bodies alone."""

import os
from dataclasses import dataclass

from .edits import GATE, JUDGED, BadEdit, apply, edit_paths, read_edit
from .repository import folder_of, read_sources
from .rounds import candidate
from .source import scan, skeleton


@dataclass(frozen=True)
class Looked:
    """What a look at the edits of a crate gave: how many are fine, what is wrong, and the public functions that no
    edit changes."""

    fine: int
    wrong: tuple
    without: tuple


def fault_of(edit, folder):
    """What is wrong with the text of an edit, or nothing."""
    try:
        changed = apply(edit, {}, folder)
    except BadEdit as error:
        return str(error)
    for path, text in changed.items():
        with open(os.path.join(folder, path), encoding="utf-8") as file:
            before = file.read()
        if not path.startswith("src/"):
            return f"it changes {path}, a definition or a proof, and no body"
        if text == before:
            return f"it changes nothing in {path}"
        if skeleton(scan(path, before)) != skeleton(scan(path, text)):
            return f"it changes {path} outside of a body: a contract, an attribute, a type or another item"
    return ""


def read_all(folder):
    """The edits of both folders of a crate that can be read, and what is wrong with the others."""
    edits, wrong, seen = [], [], {}
    for part in (JUDGED, GATE):
        good, bad = edit_paths(folder, part)
        wrong += [(path, "its name is no name of an edit, or it stands in a folder of its own") for path in bad]
        for path in good:
            name = os.path.basename(path)
            if name in seen:
                wrong.append((path, f"its name is that of {seen[name]} too"))
            seen.setdefault(name, path)
            try:
                edits.append(read_edit(folder, path))
            except BadEdit as error:
                wrong.append((path, str(error)))
    return edits, wrong


def public_functions(files):
    """The functions with a body that are `pub` and stand in no module of tests, by their keys."""
    return {one.key for file in files for one in file.functions if one.is_public}


def look(root, name):
    """Looks over the edits of a crate."""
    folder = folder_of(root, name)
    edits, wrong = read_all(folder)
    files = {path: scan(path, text) for path, text in read_sources(folder).items()}
    named, fine = set(), 0
    for edit in edits:
        fault = fault_of(edit, folder)
        if fault:
            wrong.append((edit.path, fault))
        else:
            named |= candidate(edit, files).keys
            fine += not any(path == edit.path for path, _ in wrong)
    without = sorted(public_functions(files.values()) - named)
    return Looked(fine, tuple(wrong), tuple(without))


def look_at_all(root, names, tell):
    """Looks over the edits of crates: how many are fine, and how many are not."""
    fine = failed = 0
    for name in names:
        looked = look(root, name)
        fine, failed = fine + looked.fine, failed + len({path for path, _ in looked.wrong})
        for path, why in looked.wrong:
            tell(f"{name}/{path}: {why}")
        if looked.without:
            tell(f"{name}: public functions with no wrong body ({len(looked.without)}): {', '.join(looked.without)}")
    return fine, failed
