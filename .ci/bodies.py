"""Wrong bodies: what an edit changes, what the prover says against it, and what was tried before."""
import enum
import hashlib
import json
import re
import typing

import kit

MORE = kit.TOP / "tests" / "wrong_bodies"
FUNCTION = re.compile(r"\s*(?:pub(?:\([a-z]+\))? )?(?:const )?fn (\w+)")
# A line above a function that is of it: a word of its page, an attribute, or one that goes on.
ABOVE = re.compile(r"\s*(?://|#\[)|.*[^{};\s]\s*$")
# What the prover says of a place, and of a function; and words of a fault that only misses a name.
SAID = re.compile(r"^(?:note: )?(?:\./)?((?:src|proofs)/\S+?):(\d+):\d+:(.*)", re.M)
PROVED = re.compile(r"^fn (\S+): proved$", re.M)
NAMES = re.compile(r"has no field|is not in scope|has no `|was not admitted")


class How(enum.Enum):
    """What the try of a wrong body came to. The first two are as they should be."""

    CLAUSE = "refused"
    LIMIT = "refused at a limit of the prover"
    NAME = "refused by a name alone"
    BAD = "not to be read"
    PROVED = "proved"
    UNTRIED = "not tried"


class Result(typing.NamedTuple):
    how: How
    said: str


def head(rows, at):
    """Where the words and attributes above a function begin, which stands there. The prover names the first of them."""
    while at > 0 and ABOVE.match(rows[at - 1]):
        at -= 1
    return at


class Body:
    """A wrong body: the texts that an edit changes in a file, and the function around the first of them."""

    def __init__(self, crate, edit):
        self.edit, self.label = edit, f"{crate}/{edit.stem}"
        lines = [it.partition(": ") for it in edit.read_text().splitlines() if it]
        self.file, self.pairs = lines[0][2], [(was[2], new[2]) for was, new in zip(lines[1::2], lines[2::2])]
        self.source = kit.TOP / "crates" / crate / self.file

    def not_once(self, text):
        """What is wrong with a text that it changes: each has to stand once, after the changes before it."""
        for was, new in self.pairs:
            if text.count(was) != 1:
                yield f"{self.edit.relative_to(kit.TOP)}: {was.strip()!r} stands {text.count(was)} times in {self.file}"
            text = text.replace(was, new)

    def faults(self):
        return self.not_once(self.source.read_text()) if self.source.is_file() else [f"{self.label}: no {self.file}"]

    def changed(self, text):
        for was, new in self.pairs:
            text = text.replace(was, new)
        return text

    def function(self):
        """The name and the first line of the function, or no name."""
        text = self.source.read_text()
        rows = text[:text.index(self.pairs[0][0])].split("\n")
        for at in range(len(rows) - 1, -1, -1):
            found = FUNCTION.match(rows[at])
            if found or rows[at] == "}":
                return found and found[1], at + 1
        return None, 0

    def errors(self, text, said):
        """What the prover said against its function, where this text of the file was tried: not for a name alone."""
        name, line = self.function()
        rows = text.split("\n")
        first = head(rows, line - 1) + 1
        last = next((head(rows, at) for at in range(line, len(rows)) if FUNCTION.match(rows[at])), len(rows))
        place = self.file.removeprefix("src/").removesuffix(".rt")
        module, proofs = place.replace("/", "::"), "proofs/" if place in ("lib", "main") else f"proofs/{place}/"
        if any(f"::{module}::" in it[1] and it[1].endswith(f"::{name}") for it in PROVED.finditer(said)):
            return
        for it in SAID.finditer(said):
            inside = it[1] == self.file and first <= int(it[2]) <= last
            if inside or it[1].startswith(proofs) and name in it[1].split("/") and not NAMES.search(it[3]):
                yield it[0]

    def sum(self, stamp):
        """The name of its try in a crate that has this stamp, which is of all that the crate stands on."""
        return hashlib.sha256(f"{stamp} {self.edit.name}\n".encode() + self.edit.read_bytes()).hexdigest()


def bodies_of(name):
    places = [kit.TOP / "crates" / name / "must-fail", MORE / name]
    return [Body(name, edit) for place in places for edit in sorted(place.glob("*.edit"))]


def rounds(bodies):
    """These bodies, in turns of distinct functions; what stands in no function comes in none."""
    left = [it for it in bodies if it.function()[0]]
    while left:
        first = {(it.file, it.function()): it for it in reversed(left)}
        yield [*first.values()]
        left = [it for it in left if it is not first[it.file, it.function()]]


class Tried:
    """What was tried before, a line for each in a file that only grows, so that a run goes on where one was broken off.

    A body that was proved or not tried is tried anew.
    """

    def __init__(self, path, is_anew):
        self.path, self.found = path, {}
        path.parent.mkdir(parents=True, exist_ok=True)
        for line in path.read_text().splitlines() if path.exists() and not is_anew else []:
            try:
                it = json.loads(line)
                self.found[it["sum"]] = Result(How[it["how"]], it["said"])
            except (ValueError, KeyError, TypeError):
                # A line that was cut.
                pass

    def keep(self, sum, label, result):
        if result.how in (How.PROVED, How.UNTRIED):
            return
        self.found[sum] = result
        with open(self.path, "a") as it:
            it.write(json.dumps({"sum": sum, "body": label, "how": result.how.name, "said": result.said}) + "\n")
