"""The items of a source file, and of a module of definitions or proofs, and those that a set of
words reaches: a type, a constant, an interface or a definition by its name; an `impl` by the names
of its type and its interface; and by the words of what is reached what these name in turn."""
import functools
import re

# The first line of an item of a source that others reach by a name.
NAMED = re.compile(
    r"(?:pub(?:\(\w+\))? )?(?:unsafe )?(?:struct|enum|union|trait|type|const|static)\s+(?:mut )?(\w+)"
)
IMPL = re.compile(r"(?:unsafe )?impl\b")
# A file's imports, and those that others may use too.
USES = {".rt": r"(?m)^(?:ghost )?use [^;]*;\n", ".antt": r"(?m)^use [^\n]*\n(?:[ \t}][^\n]*\n)*"}
EXPORT = re.compile(r"pub use [^;]*;\n\Z")
# The names in the braces of an import, and those that one gets by another name.
LISTED = re.compile(r"\{(.*)\}", re.S)
OTHER_NAME = re.compile(r"([^\s{,.:]+) as (\S+?)[,};]?(?=\s|$|\})")
# The first line of a definition or a lemma, and of a module of such.
MARKS = r"(?:(?:abbrev|unfoldable|pub|opaque|instance)\s+)*"
DEFINED = re.compile(MARKS + r"(?:(?:record|data)\s+)?([^\s:({]+)")
INNER = re.compile(r"(?m)^ +%s(?:(?:record|data)\s+)?([^\s:({]+)(?:\s[^\n:=]*)? :" % MARKS)
WORD = re.compile(r"\w+")
# A name where a method of that name may be meant: it is called, without a space as `rt fmt` lays
# it out, or stands behind a path.
CALLED = re.compile(r"\.(\w+)(?=\(|::)|::(\w+)")


def words_in(text):
    return frozenset(WORD.findall(text))


def as_called(name):
    """A word for a method that is called, which no text has as a word."""
    return name + "()"


def calls_in(text):
    """The words of a text, and those of the methods that it may call."""
    called = (one or other for one, other in CALLED.findall(text))
    return words_in(text).union(map(as_called, called))


class Item:
    """An item: its text, the words in it, and the names of which some words reach it by having one,
    or none where they always do; of an `impl` also the words of its head, without the parameters
    that it begins with and its bounds."""

    def __init__(self, text, names, head=None):
        self.text, self.words, self.head = text, words_in(text), head
        self.names = [words_in(name) for name in names]


class File:
    """A file: its items, and its imports, each with the names that it gives the file."""

    def __init__(self, kind, text):
        self.uses = [(line, given_names(line)) for line in re.findall(USES[kind], text)]
        rest = re.sub(USES[kind], "", text)
        self.items = source_items(rest) if kind == ".rt" else logic_items(rest)
        self.known = {}

    def imports(self, text):
        """Those of its imports that a text needs, with the names that it has."""
        if text not in self.known:
            needed = [(line, names) for line, names in self.uses if has_any(text, names)]
            self.known[text] = [of_names(line, names, text) for line, names in needed]
        return self.known[text]


@functools.lru_cache(maxsize=None)
def file_of(kind, text):
    return File(kind, text)


def given_names(line):
    """The names that an import gives a file, each with the words by which it does."""
    listed = LISTED.search(line)
    if not listed:
        words = re.split(r"[\s;.]+|::", line.strip())
        return [(words[-1] or words[-2], None)]
    names = [re.sub(r"\s+", " ", name.strip()) for name in listed.group(1).split(",")]
    return [(name.split(" as ")[-1], name) for name in names if name]


@functools.lru_cache(maxsize=None)
def sign(name):
    """Finds a name in a text: a word, or the signs of an operator, without the places of its
    sides."""
    parts = [re.escape(part) for part in name.split("◌") if part]
    if WORD.fullmatch(name):
        return re.compile(r"(?<!\w)%s(?!\w)" % re.escape(name))
    return re.compile("|".join(parts) or ".")


def has_any(text, names):
    return any(name == "*" or sign(name).search(text) for name, _ in names)


def of_names(line, names, text):
    """An import with those of its names that a text has."""
    if names[0][1] is None:
        return line
    origin = line[: line.index("{")]
    used = [how for name, how in names if name == "*" or sign(name).search(text)]
    return "%s{%s}%s\n" % (origin, ", ".join(used), ";" if line.rstrip().endswith(";") else "")


def head_words(text):
    """The words of the head of an `impl` that say of which type and interface it is."""
    head = re.split(r"\{|\bwhere\b", text.partition("impl")[2], maxsplit=1)[0].lstrip()
    if head.startswith("<"):
        depth = 0
        for at, one in enumerate(head):
            depth += (one == "<") - (one == ">" and head[at - 1] != "-")
            if depth == 0:
                head = head[at + 1 :]
                break
    return words_in(head)


def source_item(lines):
    first = next(one for one in lines if one and one[0] not in "# ")
    text = "\n".join(lines) + "\n"
    if IMPL.match(first):
        return Item(text, [], head_words(text[text.index(first) :]))
    named = NAMED.match(first)
    return Item(text, [named.group(1)] if named else [])


def source_items(text):
    """The items of a source file as `rt fmt` lays it out: each ends with a line at the margin that
    closes it."""
    found, lines, has_head = [], [], False
    for line in text.split("\n"):
        if line.strip() == "" or line.startswith("//"):
            continue
        lines.append(line)
        if line[0] in " #":
            continue
        has_head = has_head or line[0] not in ")]"
        if has_head and (line[0] == "}" or line.endswith((";", "}"))):
            # a module is no item, and an export is looked for by its names alone
            if not re.match(r"(?:pub(?:\(\w+\))? )?mod \w+;", lines[-1]) or len(lines) > 1:
                if not EXPORT.match("\n".join(lines) + "\n"):
                    found.append(source_item(lines))
            lines, has_head = [], False
    return found + ([Item("\n".join(lines) + "\n", [])] if lines else [])


def logic_items(text):
    """The definitions and lemmas of a module: each with its clauses, which begin with its name, and
    a module of such as one item."""
    found, lines, names = [], [], None

    def close():
        if lines:
            found.append(Item("\n".join(lines) + "\n", names or []))

    for line in text.split("\n"):
        if line.strip() == "" or line.lstrip().startswith("--"):
            continue
        if line[0] in " \t})" and lines:
            lines.append(line)
            continue
        begins = DEFINED.match(line)
        name = begins.group(1) if begins else line
        if lines and names == [name] and not re.match(MARKS + r"(record|data)\b", line):
            lines.append(line)
            continue
        close()
        lines, names = [line], [name] if words_in(name) else []
    close()
    return [of_module(one) for one in found if not re.match(r"(pub )?mod ", one.text)]


def of_module(item):
    """A module of definitions and lemmas is reached by the name of each of them."""
    if not re.match(r"(pub )?module ", item.text):
        return item
    return Item(item.text, INNER.findall(item.text))


class Waiting:
    """Items that words have not reached yet, each listed under a word that it lacks."""

    def __init__(self, words, defined):
        self.words, self.defined, self.lists, self.new = set(words), defined, {}, []

    def lacks(self, item):
        """For each way to reach an item a word that is not there, if there is none yet."""
        ways = [item.head & self.defined] if item.head is not None else item.names or [frozenset()]
        found = [next((word for word in way if word not in self.words), None) for way in ways]
        return [] if None in found else found

    def add(self, path, item):
        lacking = self.lacks(item)
        for word in lacking:
            self.lists.setdefault(word, []).append((path, item))
        if not lacking:
            self.new.append((path, item))

    def add_words(self, words):
        for word in words - self.words:
            self.words.add(word)
            for path, item in self.lists.pop(word, []):
                self.add(path, item)


def reached(files, words, load):
    """What words reach of the texts of some files, by their paths: the imports and items that they
    reach, and nothing of a file of which they reach no item. `load` gives, by their paths, the
    texts of the modules that a text names."""
    files = {path: file_of(kind_of(path), text) for path, text in files.items()}
    every = [(path, one) for path, file in files.items() for one in file.items]
    defined = frozenset(word for _, one in every for name in one.names for word in name)
    waiting, kept = Waiting(words, defined), {path: set() for path in files}
    for path, one in every:
        waiting.add(path, one)
    while waiting.new:
        path, one = waiting.new.pop()
        if id(one) in kept[path]:
            continue
        kept[path].add(id(one))
        imports = files[path].imports(one.text)
        renamed = {old for line in imports for old, _ in OTHER_NAME.findall(line)}
        waiting.add_words(one.words | renamed)
        for other, text in load("".join(imports) + one.text).items():
            if other not in files:
                files[other], kept[other] = file_of(kind_of(other), text), set()
                for item in files[other].items:
                    waiting.add(other, item)
    return {path: text_of(files[path], found) for path, found in kept.items() if found}


def kind_of(path):
    return ".rt" if path.endswith(".rt") else ".antt"


def text_of(file, found):
    """A file's items that were reached, with the imports that they need."""
    text = "".join(one.text for one in file.items if id(one) in found)
    return "".join(file.imports(text)) + text
