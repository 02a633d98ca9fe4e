"""Reads the modules of definitions: what each brings in, what it defines, and which definitions one names."""
import dataclasses
import itertools
import pathlib
import re

CRATES = pathlib.Path(__file__).resolve().parent.parent / "crates"
NAME = r"[^\s.,;:(){}\[\]]+"
IMPORT = re.compile(r"^(?:ghost )?use ([\w.]+?)(?:\.\{([^}]*)\})?(?: as (\w+))?;?\s*$", re.M | re.S)
HEAD = re.compile(rf"^( *)(?:(?:abbrev|unfoldable|pattern) )?(?:pub )?(?:(?:abbrev|unfoldable|pattern) )?(?:(data|record) )?({NAME})(?=[\s:(])")
GROUP = re.compile(r"^ *(?:module _\b.*where|abbrev mutual|unfoldable mutual|mutual)\s*$")
OPENS = re.compile(rf"^ *(?:(?:pub|abbrev|unfoldable|pattern|data|record) |{NAME} : )")
CONSTRUCTOR = re.compile(rf"^ +(?:pub )?({NAME}) :")
LABEL = re.compile(r"(^ +|[{;] *)(?:pub )?[a-z_][\w']* [=:] ")
TOKEN = re.compile(r"[A-Za-z_][\w'?-]*(?:\.[A-Za-z_][\w'?-]*)*|\.[A-Za-z_][\w'?-]*|◌?[^\w\s(){}\[\],;.]+◌?")


@dataclasses.dataclass(eq=False)
class Definition:
    module: "Module"
    name: str
    first: int
    lines: list[str]
    is_data: bool
    group: int | None = None
    heading: list[str] = dataclasses.field(default_factory=list)
    constructors: list[str] = dataclasses.field(default_factory=list)

    @property
    def body(self):
        """The lines without comments."""
        return [line for line in self.lines if not line.strip().startswith("--")]

    @property
    def words(self):
        """The words of the lines, but for the names that fields and constructors have here."""
        for line in self.body:
            code = LABEL.sub(r"\1 ", line)
            for token in TOKEN.findall(code):
                yield from spellings(token)


class Module:
    """A file of definitions: what it brings in, by local name, and its definitions in order. `head` is its first comment."""

    def __init__(self, path):
        self.path = path
        text = path.read_text()
        self.lines = text.splitlines()
        self.head = list(itertools.takewhile(is_comment, self.lines))
        self.names, self.aliases = imports(text)
        self.definitions = definitions(self)
        self.by_name = {}
        for one in self.definitions:
            for name in [one.name, *one.constructors]:
                self.by_name.setdefault(name, one)

    def opening(self, group):
        """The line that opens a group, with the comment above it; nothing of no group."""
        return [] if group is None else self.lines[above(self.lines, group) : group + 1]


def file_of(dotted):
    """The file of definitions that a module's dotted name stands for, if the repository has it."""
    match = re.fullmatch(r"Rattle\.(\w+)\.specs\.(.+)", dotted)
    if not match or match[2].startswith(("declared.", "contracts.")):
        return None
    path = CRATES / match[1] / "specs" / (match[2].replace(".", "/") + ".antt")
    return path if path.exists() else None


def imports(text):
    """What `use` lines bring in: a local name's module and name there, and the module of each alias."""
    names, aliases = {}, {}
    for dotted, listed, alias in IMPORT.findall(text):
        for one in filter(None, (it.strip() for it in listed.split(","))):
            there, _, here = one.partition(" as ")
            names[(here or there).strip()] = (dotted, there.strip())
        if alias:
            aliases[alias] = dotted
    return names, aliases


def is_comment(line):
    return line.strip().startswith("--")


def above(lines, number):
    """Where the comment begins that stands on a line; a heading is none."""
    while number and is_comment(lines[number - 1]) and not lines[number - 1].strip().startswith("-- ----"):
        number -= 1
    return number


def starts(lines):
    """Where definitions start, at no indent or one step in within a group; and which line opens the group, if one does."""
    levels, groups = [0], [None]
    for number, line in enumerate(lines):
        if not line.strip() or is_comment(line):
            continue
        indent = len(line) - len(line.lstrip())
        while indent < levels[-1]:
            levels.pop()
            groups.pop()
        if indent != levels[-1]:
            continue
        if GROUP.match(line):
            levels.append(indent + 2)
            groups.append(number)
        elif OPENS.match(line) and not re.match(r" *pub mod ", line):
            yield number, groups[-1]


def definitions(module):
    lines, found = module.lines, []
    begun = list(starts(lines))
    ended = len(module.head)
    for (number, group), (after, _) in zip(begun, [*begun[1:], (len(lines), None)]):
        match = HEAD.match(lines[number])
        first = above(lines, number)
        end = number + 1
        while end < after and lines[end].strip() and not GROUP.match(lines[end]):
            end += 1
        own = lines[first:end]
        while own and is_comment(own[-1]):
            own.pop()
        one = Definition(module, match[3], first, own, match[2] == "data", group)
        begins = first if group is None or group < ended else above(lines, group)
        one.heading = [line for line in lines[ended:begins] if is_comment(line)]
        ended = first + len(own)
        if one.is_data:
            one.constructors = [it[1] for it in map(CONSTRUCTOR.match, own[1:]) if it]
        found.append(one)
    return found


class Library:
    """All modules that were asked for, each read once."""

    def __init__(self):
        self.modules = {}

    def module(self, path):
        if path not in self.modules:
            self.modules[path] = Module(path)
        return self.modules[path]

    def named(self, dotted, name):
        """The definition of a name in a module, if the repository has it."""
        path = file_of(dotted)
        return self.module(path).by_name.get(name) if path else None

    def found(self, token, names, aliases, own=None):
        """The definition that a word of a text stands for, where the text brings in these."""
        head, _, rest = token.partition(".")
        if rest and head in aliases:
            return self.named(aliases[head], rest.split(".")[0])
        if head in names:
            return self.named(*names[head])
        return own.by_name.get(head) if own else None

    def uses(self, one):
        """The definitions that a definition names."""
        bound = self.bound_in(one)
        for word in one.words:
            other = None if word in bound else self.found(word, one.module.names, one.module.aliases, one.module)
            if other and other is not one:
                yield other

    def bound_in(self, one):
        return bound_names(one, lambda word: self.found(word, one.module.names, one.module.aliases, one.module))

    def declared(self, one):
        """The types and constants of sources that a definition names: the source's file and the name there."""
        bound = self.bound_in(one)
        for word in one.words:
            head, _, _ = word.partition(".")
            dotted = one.module.aliases.get(head) or one.module.names.get(head, ("",))[0]
            if head not in bound and ".specs.declared." in dotted:
                yield source_of(dotted, one.module.names.get(head, ("", ""))[1])


def source_of(dotted, name):
    """The source that declares what a module of declarations stands for, and the type or the constant. A crate of the library
    has no source here: its name stands for it."""
    crate, _, rest = dotted.removeprefix("Rattle.").partition(".specs.declared.")
    parts = [it for it in rest.split(".") if not it.startswith("The")]
    if not (CRATES / crate).is_dir():
        return pathlib.Path(crate), (parts or [name])[0]
    for size in range(len(parts), 0, -1):
        path = CRATES / crate / "src" / ("/".join(parts[:size]) + ".rt")
        if path.exists():
            return path, (parts[size:] or [name])[0]
    return CRATES / crate / "src" / "lib.rt", (parts or [name])[0]


def spellings(token):
    """A word as it stands, and an operator as it is named with its places."""
    yield token
    if not re.match(r"[\w.]", token):
        yield f"◌{token}◌"


def bound_names(one, found):
    """The variables of a definition: what its types, its patterns and its functions bind."""
    text = "\n".join(one.body)
    bound = set()
    for group in re.findall(r"[({]([\w' -]+?) :", text):
        bound |= set(group.split())
    for group in re.findall(r"λ ([\w' -]+)\.", text):
        bound |= set(group.split())
    for line in one.body:
        left, equals, _ = line.strip().partition(" = ")
        if equals and left.split()[0] == one.name:
            bound |= {it for it in re.findall(r"(?<![\w.])[a-z_][\w']*", left)
                      if it != one.name and not (found(it) and it in found(it).constructors)}
    bound.discard(one.name)
    return bound
