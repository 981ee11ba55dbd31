"""A table of new names, which `wrong_bodies.py --renamed` maps back.

A line is `old new`. Each name is one whole word: of the code, of definitions and proofs, of a file,
a folder or a crate. A third word limits where the line holds. `contract`: names without a path in
contracts, definitions and proofs. `clause`: such names in sources only, where a type's own name may
hide a record's. `code`: everything else. `@a,b` at the end limits it to these crates, by their old
names."""
import functools
import os


PLACES = ("contract", "clause", "code")


class BadMap(Exception):
    """A table that cannot be reversed with certainty."""


class Row:
    """A line of the table."""

    def __init__(self, number, words):
        crates = words[-1][1:].split(",") if words[-1].startswith("@") else None
        words = words[:-1] if crates else words
        self.place = words[2] if len(words) == 3 and words[2] in PLACES else None
        names = words[:2] if self.place else words
        if len(names) != 2 or not all(word.replace("_", "a").isalnum() for word in names):
            raise BadMap("line %d is not of the form `old new`, each one word" % number)
        self.number, self.crates = number, crates
        self.old, self.new = names

    def holds(self, crate):
        return self.crates is None or crate in self.crates


class Scope:
    """The names of one crate, or of what is in none: new ones by old ones, or old ones by new."""

    def __init__(self):
        self.everywhere, self.contract, self.clause, self.code = {}, {}, {}, {}

    def name(self, token, before, in_contract, kind=".antt"):
        """The other name for a token that comes after another one, in a file of this kind."""
        places = [self.code]
        if in_contract and before != ".":
            places = [self.clause, self.contract] if kind == ".rt" else [self.contract]
        found = (place[token] for place in (*places, self.everywhere) if token in place)
        return next(found, token)


class Names:
    """A table."""

    def __init__(self, text=""):
        lines = (line.split("#")[0].split() for line in text.split("\n"))
        self.rows = [Row(number, words) for number, words in enumerate(lines, 1) if words]
        for crate in {None, *(crate for row in self.rows for crate in row.crates or ())}:
            for place in (None, *PLACES):
                self.check([one for one in self.rows if one.place == place and one.holds(crate)])

    @staticmethod
    def check(rows):
        old, new = set(), set()
        for row in rows:
            if row.old in old or row.new in new:
                told = (row.number, row.old, row.new)
                raise BadMap("line %d: %s or %s is in another line too" % told)
            old.add(row.old)
            new.add(row.new)

    @functools.lru_cache(maxsize=None)
    def old(self, crate):
        """The old names by the new ones in a crate with this old name."""
        return self.scope(crate, lambda row: (row.new, row.old))

    @functools.lru_cache(maxsize=None)
    def new(self, crate):
        """The new names by the old ones in a crate with this old name."""
        return self.scope(crate, lambda row: (row.old, row.new))

    def scope(self, crate, pair):
        made = Scope()
        places = {None: made.everywhere, **{place: getattr(made, place) for place in PLACES}}
        for row in self.rows:
            if row.holds(crate):
                name, other = pair(row)
                places[row.place][name] = other
        return made

    @functools.cached_property
    def old_crates(self):
        """The old names by the new ones that a crate may have."""
        places = (None, "code")
        return {row.new: row.old for row in self.rows if not row.crates and row.place in places}

    def old_crate(self, path):
        """The old name of the crate of a file in the new tree, if it is in one."""
        parts = path.split(os.sep)
        if parts[0] != "crates" or len(parts) < 2:
            return None
        return self.old_crates.get(parts[1], parts[1])
