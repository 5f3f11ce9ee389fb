"""Tries must-fail edits at the price of what they touch, for tools/rt and checks/run_edits

The kit's `rt` checks the whole crate for an edit. Here `rattle check --only` first looks at the function that the edit changes,
and what it calls, over the libraries that are proved already. A check of the crate proves these functions with the same
clauses and the same proof files, so what is refused here it refuses too. Only a function that is read and not proved counts as
refused: where there is no such function under that name, where the tool fails, or where all are proved, since an edit breaks
the proof of a caller, the kit tries the whole crate.

A line `only: FUNCTION ..` in an edit, which the kit passes over, names the functions whose proofs refuse it.
"""

import concurrent.futures
import os
import pathlib
import re
import time

FUNCTION = re.compile(r"^( *)(?:pub(?:\([^)]*\))? )?(?:const |unsafe |extern \"C\" )*fn (\w+)")
BLOCK = re.compile(r"^(?:pub(?:\([^)]*\))? )?(impl|trait)\b")
LAST = re.compile(r"only=(\d+) proved=(\d+)")
REFUSED = re.compile(r"^fn (\S+): (?:not proved|no proof)")
# Each is tried by one job, since several are tried at a time.
FLAGS = ["--jobs", "1"]
# What only says that a proof file names what the edit took away, as `rt` has it.
NAMES = re.compile(r"(\./)?proofs/.*(has no field|is not in scope|has no `|was not admitted)")


def without_arguments(text):
    """Returns a type or the head of a block without what is in angle brackets."""
    text = text.replace("->", "")
    while re.search(r"<[^<>]*>", text):
        text = re.sub(r"<[^<>]*>", "", text)
    return text


def named(text):
    """Returns the name that rattle gives to a type or a trait, as U64, Option or FromAllocError."""
    words = re.findall(r"\w+", re.sub(r"(\w+::)+", "", re.sub(r"'\w+|\b(mut|dyn)\b", "", text)))
    return "".join(it[:1].upper() + it[1:] for it in words)


def block_name(head):
    """Returns the name that rattle gives to the functions of an impl or a trait with this head."""
    head = head.partition("{")[0].partition(" where")[0].strip()
    if not head.startswith("impl"):
        return named(re.sub(r"^(pub(\([^)]*\))? )?trait ", "", without_arguments(head)).partition(":")[0])
    head = head.removeprefix("impl")
    if head.startswith("<"):
        ends = [at for at in range(len(head)) if head[at] == ">" and head[: at + 1].count("<") == head[: at + 1].replace("->", "").count(">")]
        head = head[ends[0] + 1 :]
    trait, _, of = head.rpartition(" for ")
    trait, _, arguments = trait.strip().partition("<")
    of, trait = named(without_arguments(of)), named(trait) + named(without_arguments(arguments.rpartition(">")[0]))
    return of if trait == "Drop" else of + trait


def function_at(text, at):
    """Returns the function of a .rt file that has a place, by its path below the file's module, or None."""
    block = function = indent = None
    begin = 0
    for line in text.split("\n"):
        end = begin + len(line) + 1
        found = FUNCTION.match(line)
        if BLOCK.match(line):
            block = block_name(text[begin : text.find("{", begin) + 1].replace("\n", " "))
        if found and (function is None or len(found[1]) <= indent):
            function, indent = "::".join(it for it in (block, found[2]) if it), len(found[1])
        if at < end:
            return function
        if function and (line == " " * indent + "}" or found and line.endswith("}")):
            function = None
        if line == "}":
            block = None
        begin = end
    return None


def module_of(path):
    """Returns the module of a file of src/, the words of its path below the crate."""
    words = path.removesuffix(".rt").split("/")[1:]
    return [] if words in (["lib"], ["main"]) else words[:-1] if words[-1] == "mod" else words


def module_with(folder, path, function):
    """Returns the module by which rattle names a function of a file: for a method that of its type, which may stand elsewhere."""
    of = function.partition("::")[0] if "::" in function else None
    declared = re.compile(rf"^(?:pub(?:\([^)]*\))? )?(?:struct|enum) {of}\b", re.M)
    for it in sorted(pathlib.Path(folder, "src").rglob("*.rt")) if of else ():
        if declared.search(it.read_text(encoding="utf-8")):
            return module_of(str(it.relative_to(folder)))
    return module_of(path)


def hinted(text):
    """Returns the functions that an edit names as those whose proofs refuse it."""
    return [name for line in text.split("\n") if line.startswith("only: ") for name in line.split()[1:]]


def changed(text, folder):
    """Returns the functions that an edit changes."""
    path, old, sources, found = "", None, {}, []
    for line in text.split("\n"):
        if line.startswith("file: "):
            path = line.removeprefix("file: ").strip()
            if not path.startswith("src/"):
                return []
            if path not in sources:
                with open(f"{folder}/{path}", encoding="utf-8") as it:
                    sources[path] = it.read()
        elif line.startswith("old: "):
            old = line.removeprefix("old: ")
        elif line.startswith("new:") and old:
            new, source = line.removeprefix("new:").removeprefix(" "), sources[path]
            within = function_at(source, source.index(old) + len(os.path.commonprefix([old, new])))
            if within:
                found.append("::".join([*module_with(folder, path, within), within]))
            sources[path], old = source.replace(old, new), None
    return list(dict.fromkeys(found))


def is_refused(rt, ran, texts):
    """Returns the function that a run under --only has read and not proved, and what it says of it, or None."""
    lines = ran.stdout.rstrip("\n").split("\n")
    last = LAST.fullmatch(lines[-1])
    if ran.returncode != 1 or not last or int(last[2]) >= int(last[1]):
        return None
    if any(rt.unread(it, texts) for it in lines) or rt.rtlib.STALE.search(ran.stdout):
        return None
    functions = [it[1] for it in map(REFUSED.match, lines) if it]
    told = [it for it in lines if re.match(r"(note: )?\S+:\d+:\d+:", it)]
    told = [it for it in told if ": error" in it or it.startswith("note: ")] or told
    if not functions or told and all(NAMES.match(it) for it in told):
        return None
    first = next((it for it in told if not NAMES.match(it)), next(it for it in lines if REFUSED.match(it)))
    return functions[0], first


def try_alone(rt, crate, edit, flags):
    """Tries an edit on the functions that it names or changes. Returns what to say where one is refused, or None."""
    begin = time.monotonic()
    texts, why = rt.read_edit(edit, crate.folder)
    if why:
        return None
    with open(edit, encoding="utf-8") as it:
        text = it.read()
    names = hinted(text) or changed(text, crate.folder)
    if not names:
        return None
    ran = rt.checked(crate, texts, [*flags, *(word for it in names for word in ("--only", it))], None)
    found, seconds = is_refused(rt, ran, texts), time.monotonic() - begin
    label = f"must-fail {crate.name}/{os.path.basename(edit)}"
    if not found:
        said = ran.stdout.rstrip("\n").split("\n")[-1][:120]
        rt.say(f"{label}: not refused by {' '.join(names)} alone, in {seconds:.0f} s ({said}): the whole crate decides")
        return None
    return f"{label}: refused, as it must be, by {found[0]} alone in {seconds:.0f} s: {found[1][:160]}"


def replace(rt):
    """Has the kit's `rt` try must-fail edits in this way, and under `rt ci` each as a task of its own."""
    rt.add_edits = adder(rt)


def leave_out(rt):
    """Has the kit's `rt ci` try no edit."""
    rt.edits_of = lambda _crate: ([], [])
    rt.add_edits = lambda *_given: (lambda _given: [], lambda: {})


def tried_all(rt, crate, edits):
    """Tries a crate's edits, several at a time, and returns for each whether it was refused, and what to say."""
    with concurrent.futures.ThreadPoolExecutor(lanes(rt)) as pool:
        found = [*pool.map(lambda it: tried(rt, crate, it), edits)]
    return [(kind in (rt.REFUSED, rt.AT_LIMIT), said) for kind, said in found]


def tried(rt, crate, edit):
    """Tries an edit on what it touches, and on the whole crate where that doesn't refuse it. Returns what it came to, in a kit's
    word that has such words, and what to say."""
    said = try_alone(rt, crate, edit, FLAGS)
    return (rt.REFUSED, said) if said else rt.must_fail(crate, edit, FLAGS)


def adder(rt):
    """Returns what adds the tasks that try a crate's edits, in place of a kit's that makes a task of each, and has a second proof
    of the whole crate come before them. As the kit's, it returns what gives the results, and what gives those of earlier runs."""

    def add_edits(tasks, crate, edits, _first, waits, is_well, kept, _start=None, in_ci=True):
        known = {}

        def named(number):
            """Returns the name under which the machine keeps what an edit comes to, where it does."""
            return kept.of_edit(edits[number], kept.key(crate)) if in_ci else None

        def one(given, number):
            if not is_well(given, len(edits)):
                return None
            name = named(number)
            found = kept.tried(name) if name else None
            if found:
                known[number] = found
                return found
            found = tried(rt, crate, edits[number])
            if name and found[0] in rt.SETTLED and kept.is_untouched(crate) and name == named(number):
                kept.keep_tried(name, *found)
            return found

        keys = [(crate.name, "edits", number) for number in range(len(edits))]
        for number, key in enumerate(keys):
            call = lambda given, _, number=number: one(given, number)
            tasks[key] = waits, crate.count(rb"\n") // 4, rt.need(crate), call
        return lambda given: [given[it] for it in keys], lambda: known

    return add_edits


def lanes(rt):
    """Returns how many edits are tried at a time: RT_JOBS, or one a processor with 3 GB of memory."""
    number = os.environ.get("RT_JOBS", "")
    return int(number) if number.isdigit() and number != "0" else max(1, min(rt.processors(), rt.free() // 3_000_000_000))
