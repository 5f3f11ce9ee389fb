"""What of a configuration isn't in natsd as it was in nats-server."""


class Unserved(Exception):
    """Says what natsd hasn't, so that the user or row that has it is left out."""


class Findings:
    """What isn't in the policy, what does something else there, which passwords lack, and what is only noted."""

    def __init__(self, file):
        self.file, self.found = file, {}

    def left_out(self, place, text):
        self.found[place, f"left out: {text}"] = True

    def changed(self, place, text):
        self.found[place, f"changed: {text}"] = True

    def fill_in(self, place, text):
        self.found[place, f"fill in: {text}"] = True

    def note(self, place, text):
        self.found[place, f"note: {text}"] = False

    def change_anything(self):
        """Returns whether something works otherwise than before."""
        return any(self.found.values())

    def lines(self):
        """Returns a line for each, in the order of the configuration, with included files at the end."""
        order = sorted(self.found, key=lambda it: (it[0].file != self.file, it[0].file, it[0].line))
        return [f"{place}: {text}" for place, text in order]
