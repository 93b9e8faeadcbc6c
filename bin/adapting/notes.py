"""What a run of the adapter has to tell: which lines each pass touched, what was forgotten, and what is refused."""

TITLES = {
    1: "preprocessed",
    2: "names",
    3: "words without meaning here",
    4: "expressions taken apart, from the left where C leaves the order open",
    5: "data forgotten",
    6: "cells",
    7: "globals in a cell",
    8: "refused",
}


class Refused(Exception):
    """The program cannot be adapted. `places` lists lines with reasons, all of them."""

    def __init__(self, places):
        super().__init__("refused")
        self.places = sorted(set(places))


class Notes:
    """Collects touches and refusals; a line is that of FILE, also for what an include brought."""

    def __init__(self):
        self.touched = {number: {} for number in range(1, 8)}
        self.refusals = []
        self.assertions = set()
        self.forgotten = set()
        self.silent = False

    def touch(self, number, line, what):
        if not self.silent:
            self.touched[number].setdefault(what, set()).add(line or 0)

    def refuse(self, line, reason):
        self.refusals.append((line or 0, reason))

    def settle(self):
        """Raises Refused with all places so far, if there are any."""
        if self.refusals:
            raise Refused(self.refusals)

    def untouched(self):
        return not any(self.touched.values())

    def lines(self):
        """One line of text for each pass that touched something."""
        told = []
        for number, whats in self.touched.items():
            if whats:
                parts = [f"{what} {places(lines)}" for what, lines in sorted(whats.items())]
                told.append(f"{number} {TITLES[number]}: " + "; ".join(parts))
        return told


def places(lines):
    """The lines as a text, runs of them shortened."""
    runs = []
    for line in sorted(lines):
        if runs and line == runs[-1][1] + 1:
            runs[-1][1] = line
        else:
            runs.append([line, line])
    texts = [str(first) if first == last else f"{first}-{last}" for first, last in runs if last > 0]
    return ", ".join(texts) if texts else "(from the compiler)"
