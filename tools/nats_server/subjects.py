"""Subjects and patterns (docs/POLICY.md, "Subjects")."""

import itertools
import re


def is_utf8(text):
    return not any("\ud800" <= it <= "\udfff" for it in text)


def is_pattern(text):
    """Returns whether a text is a pattern."""
    tokens = text.split(".")
    is_ended = all(tokens) and ">" not in tokens[:-1] and len(tokens) <= 512
    return is_ended and is_utf8(text) and not re.search(r"[\0\t\n\r ]", text)


def covers(pattern, other):
    """Returns whether a pattern matches every subject that another one matches."""
    for mine, its in itertools.zip_longest(pattern.split("."), other.split(".")):
        if mine == ">":
            return its is not None
        if mine is None or its in (None, ">") or mine not in ("*", its):
            return False
    return True


def overlap(pattern, other):
    """Returns whether both patterns match some subject."""
    for mine, its in itertools.zip_longest(pattern.split("."), other.split(".")):
        if mine is None or its is None:
            return False
        if ">" in (mine, its):
            return True
        if mine != its and "*" not in (mine, its):
            return False
    return True


def allowed(lists, pattern):
    """Returns whether a direction allows every subject of a pattern or none; where it can't be told, None.

    Without an allow list it allows all."""
    allow, deny = lists.get("allow", [">"]), lists.get("deny", [])
    if any(covers(it, pattern) for it in deny) or not any(overlap(it, pattern) for it in allow):
        return False
    is_whole = any(covers(it, pattern) for it in allow) and not any(overlap(it, pattern) for it in deny)
    return True if is_whole else None
