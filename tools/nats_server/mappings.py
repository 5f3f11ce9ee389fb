"""What a mapping of nats-server is to natsd (docs/POLICY.md, "Mappings")."""

import re

from conf import Fault
from findings import Unserved
from subjects import allowed, is_pattern

WEIGHT = re.compile(r"[-+]?[0-9]+%?")
# A wildcard of the source, in the spellings of nats-server and in natsd's.
NUMBERED = re.compile(r"\$([-+]?[0-9]+)|\{\{\s*[wW]ildcard\s*\(\s*([0-9]+)\s*\)\s*\}\}")
WRITTEN = re.compile(r"\$[0-9]+")


def weight_of(value):
    """Returns a weight from 0 to 100, which may stand as a number, or as a text with % or without."""
    is_text = isinstance(value.held, str)
    if is_text and not WEIGHT.fullmatch(value.held):
        raise Fault(value.place, f"{value.held} is no weight")
    weight = int(value.held.removesuffix("%")) if is_text else value.number()
    if not 0 <= weight <= 100:
        raise Fault(value.place, f"{weight} is no weight from 0 to 100")
    return weight


def template(text, source):
    """Returns what a source is mapped to as natsd writes it, with $1 for the first wildcard of the source."""
    wildcards = source.split(".").count("*")
    written = ".".join(token_of(token, wildcards) for token in text.split("."))
    if not is_pattern(written):
        raise Unserved(f"{text} is no subject")
    return written


def token_of(token, wildcards):
    """Returns a token of a destination, whose source has so many wildcards, as natsd writes it."""
    numbered = NUMBERED.fullmatch(token)
    if not numbered:
        if token.startswith("{{"):
            raise Unserved(f"natsd has no {token}, only wildcards by number")
        return token
    number = int(numbered[1] or numbered[2])
    if not 1 <= number <= wildcards:
        raise Unserved(f"it has no wildcard for {token}")
    return f"${number}"


def outcomes(source, destinations):
    """Returns the patterns of the subjects that a source may be mapped to, with itself if its weights leave it a rest."""
    rows = [destinations] if isinstance(destinations, (str, dict)) else destinations
    weighed = [(it, 100) if isinstance(it, str) else (it["destination"], it["weight"]) for it in rows]
    found = [".".join("*" if WRITTEN.fullmatch(token) else token for token in it.split(".")) for it, _ in weighed]
    return found if sum(weight for _, weight in weighed) == 100 else [*found, source]


def judged_otherwise(publish, mappings):
    """Returns the sources of which publish lists may allow a subject that they refuse once it is mapped, or the reverse.

    Of each it says whether they refuse all that its subjects are mapped to."""
    found = {}
    for source, destinations in mappings.items():
        mapped = {allowed(publish, it) for it in outcomes(source, destinations)}
        if {allowed(publish, source), *mapped} not in ({True}, {False}):
            found[source] = mapped == {False}
    return found
