"""The kit's `rt` as a module, in which what it walks is remembered

The kit's `Crate.below` and `Crate.stamp` walk each path down the graph of crates.txt: millions of them, and a stamp reads the
files of a crate once a path. Here the libraries below a crate are found once for each crate that is made, and a stamp is
remembered with the name, the place, the size and the times of each file that it sums up. Each question looks at all of these
again, so that what changes meanwhile is seen. All that is remembered is a function of the text: no verdict depends on it.

A library in a crate's out/ has beside it a sum of what it was made from: the crate's own text, and the libraries below as they are
built. So it is built again only where a library below came out otherwise. A comment in its code leaves a library's bytes as they
were; a changed body or proof doesn't, and rattle takes no library that was proved over others than these.
"""

import contextlib
import hashlib
import importlib.machinery
import importlib.util
import io
import os
import shutil
import subprocess
import sys
import threading
import time

# A file that changed this shortly before it was read could change again without another time.
YOUNG = 1_000_000_000


def home():
    """Returns the folder of the kit's commands."""
    rt = shutil.which("rt")
    if not rt:
        raise SystemExit("natsd: the Rattle kit's command rt is not on the PATH")
    here = os.path.dirname(os.path.realpath(rt))
    if not os.path.isfile(f"{here}/rtlib.py"):
        page = subprocess.run(["rt", "doc"], capture_output=True, text=True, check=True).stdout.strip()
        here = f"{os.path.dirname(page)}/bin"
    return here


def loaded(name, file):
    """Returns a file of the kit as a module."""
    loader = importlib.machinery.SourceFileLoader(name, file)
    made = importlib.util.module_from_spec(importlib.util.spec_from_loader(name, loader))
    sys.modules[name] = made
    loader.exec_module(made)
    return made


def rt():
    """Returns the kit's `rt`, whose library `rtlib` remembers what it walks."""
    sys.dont_write_bytecode = True
    made = loaded("rt", f"{home()}/rt")
    remember(made.rtlib)
    remember_tests_of_text(made.rtlib)
    keep_by_parts(made.rtlib)
    return made


def rtlib():
    """Returns the library of the kit's `rt`, which remembers what it walks."""
    return rt().rtlib


def remember(lib):
    """Has a library of `rt` remember what it walks."""
    below, count, unread = lib.Crate.below, lib.Crate.count, lib.stop_on_unread

    def below_once(crate):
        if "found_below" not in vars(crate):
            crate.found_below = below(crate)
        return list(crate.found_below)

    def count_once(crate, pattern):
        """Returns how often a crate's code has a pattern, by which jobs and memory are planned and nothing is judged."""
        counts = vars(crate).setdefault("counts", {})
        if pattern not in counts:
            counts[pattern] = count(crate, pattern)
        return counts[pattern]

    def unread_of_these(top, crates):
        """Looks below a folder for files that no crate reads. Only crates in or around it can read one."""
        inside = lambda folder, other: f"{folder}/".startswith(f"{other}/")
        unread(top, [it for it in crates if inside(it.folder, top) or inside(top, it.folder)])

    lib.Crate.below, lib.Crate.count, lib.stop_on_unread = below_once, count_once, unread_of_these
    lib.Crate.stamp = remembered_stamp(lib)


def sum_of_parts(lib):
    """Returns a function that sums up what a crate is made from: its own text, and the libraries below as they are built."""
    formats = {}

    def format_of(crate):
        """Returns the sum of a library's file `format`, which has the sums of all its other files. rattle itself goes by this sum."""
        file = f"{crate.rlib}/format"
        if not os.path.isfile(file):
            return None
        it = os.stat(file)
        mark = (it.st_ino, it.st_size, it.st_mtime_ns, it.st_ctime_ns)
        if formats.get(file, (None,))[0] != mark or it.st_ctime_ns > time.time_ns() - YOUNG:
            formats[file] = mark, lib.sum_of(file)
        return formats[file][1]

    def made_from(crate):
        """Returns the sum, or None where one of the libraries below isn't built."""
        below = [(it.name, it.has_c, format_of(it)) for it in crate.below()]
        if not all(it for *_, it in below):
            return None
        sum = hashlib.sha256(repr((crate.said, crate.has_c, lib.text_of(f"{lib.KIT}/WHAT"), below)).encode())
        for file in lib.files_of(crate.folder):
            with open(file, "rb") as it:
                sum.update(repr((file.replace(crate.folder, ""), it.read())).encode())
        return sum.hexdigest()

    return made_from


def keep_by_parts(lib):
    """Has a library of `rt` keep what is built by the sum of what it was made from."""
    build, made_from = lib.Crate.build_rlib, sum_of_parts(lib)

    def is_built(crate):
        made = os.path.isfile(f"{crate.rlib}/format") and made_from(crate)
        return bool(made) and lib.text_of(f"{crate.folder}/out/rlib/made-from") == made

    def build_rlib(crate, flags, anew):
        """Builds a library where it isn't, and notes what it was made from where nothing of that changed meanwhile."""
        if not anew and is_built(crate):
            return 0
        made = made_from(crate)
        status = build(crate, flags, anew)
        if status == 0 and made and made == made_from(crate):
            put(f"{crate.folder}/out/rlib/made-from", made)
        return status

    lib.Crate.is_built, lib.Crate.build_rlib = is_built, build_rlib


def note_built(lib, crates):
    """Notes of the libraries that a run has just proved, lowest first, what they were made from."""
    made_from = sum_of_parts(lib)
    for crate in crates:
        if os.path.isfile(f"{crate.rlib}/format"):
            put(f"{crate.folder}/out/rlib/made-from", made_from(crate))
            # (the kit's own `rt` goes by this sum)
            put(f"{crate.folder}/out/rlib/stamp", crate.stamp())


def put(file, text):
    with open(file, "w", encoding="utf-8") as it:
        it.write(text)


def remember_tests_of_text(lib):
    """Has `rt check` pass over the tests of a crate's text where they had nothing to say of the same text. A verdict runs them all."""
    test = lib.stop_on_text

    def stop_on_text(crate, verb):
        if verb != "check":
            return test(crate, verb)
        file, text = f"{crate.folder}/out/text-tested", crate.stamp()
        if lib.text_of(file) == text:
            return None
        said = io.StringIO()
        try:
            with contextlib.redirect_stderr(said):
                test(crate, verb)
        finally:
            sys.stderr.write(said.getvalue())
        if not said.getvalue() and os.path.isdir(os.path.dirname(file)):
            put(file, text)

    lib.stop_on_text = stop_on_text


def remembered_stamp(lib):
    """Returns `Crate.stamp` of the kit, which sums a crate up again only if a file of it or of those below has changed."""
    stamp, sums, question = lib.Crate.stamp, {}, threading.local()

    def look(crate):
        """Returns what a crate's own part of its stamp is made from, and when a file of it last changed. A question looks once."""
        if crate.folder not in question.seen:
            found = [(file, os.stat(file)) for file in lib.files_of(crate.folder)]
            marks = [(file, it.st_ino, it.st_size, it.st_mtime_ns, it.st_ctime_ns) for file, it in found]
            changed = max((it.st_ctime_ns for _, it in found), default=0)
            question.seen[crate.folder] = (crate.folder, repr((crate.said, crate.has_c)), marks, changed)
        return question.seen[crate.folder]

    def answer(crate):
        seen = [look(it) for it in [*crate.below(), crate]]
        if crate.folder in sums and sums[crate.folder][0] == seen:
            return sums[crate.folder][1]
        summed = stamp(crate)
        if max(changed for *_, changed in seen) < time.time_ns() - YOUNG:
            sums[crate.folder] = seen, summed
        return summed

    def stamp_once(crate):
        is_outermost = not hasattr(question, "seen")
        if is_outermost:
            question.seen, question.answers = {}, {}
        try:
            if crate.folder not in question.answers:
                question.answers[crate.folder] = answer(crate)
            return question.answers[crate.folder]
        finally:
            if is_outermost:
                del question.seen, question.answers

    return stamp_once
