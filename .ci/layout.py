"""Counts what makes the sources and definitions hard to read: lines that are too wide, and imports that nothing names."""
import re

WIDTH = 120
CLAUSE = re.compile(r"^\s*(requires|ensures|ghost invariant|→|×|⊎|\()")
COMMENT = re.compile(r"(?://|--).*")
USE = re.compile(r"^[ ]*(pub )?(?:ghost )?use ([^;{]*?)(?:\{([^}]*)\})?(?: as (\w+))?;?[ \t]*$", re.M)
WORD = re.compile(r"\w[\w'?-]*")
NAME = re.compile(r"[^\s.,;:(){}\[\]]+")
TRAIT = re.compile(r"^pub trait (\w+)", re.M)


def files(root, pattern):
    return sorted(it for it in root.glob(pattern) if "out" not in it.parts)


def lines(root, pattern):
    for file in files(root, pattern):
        for number, line in enumerate(file.read_text().splitlines(), 1):
            yield f"{file.relative_to(root)}:{number}", line


def wide_definitions(root):
    """The lines of definitions that are wider, but for comments and imports."""
    for place, line in lines(root, "crates/*/specs/**/*.antt"):
        if len(line) > WIDTH and not line.lstrip().startswith("--") and not line.startswith("use "):
            yield len(line), place


def wide_clauses(root):
    for place, line in lines(root, "crates/*/src/**/*.rt"):
        if len(line) > WIDTH and CLAUSE.match(line):
            yield len(line), place


def names_brought_in(text):
    """The name that each part of a `use` line stands under here, with the line's number. What is handed on to others isn't
    meant to be named here, and `*` names nothing."""
    for match in USE.finditer(text):
        number = text.count("\n", 0, match.start()) + 1
        if match[1]:
            continue
        if match[4] or match[3] is None:
            brought = [match[4] or re.split(r"[.:]+", match[2].strip())[-1]]
        else:
            brought = [it.split(" as ")[-1].strip() for it in match[3].split(",")]
        yield from ((it, number) for it in brought if it not in ("", "*", "self"))


def words_of(text):
    return {*WORD.findall(text), *NAME.findall(text)}


def is_named(name, words, text):
    """The name stands in the text: as a word, or, of an operator with places, each of its parts."""
    return all(it in words if re.match(r"\w", it) else it in text for it in name.split("◌"))


def unnamed_imports(root):
    """What a file brings in and doesn't name. A trait is left out, since its methods are called without its name."""
    found = [file for pattern in ("crates/*/**/*.antt", "crates/*/**/*.rt") for file in files(root, pattern)]
    texts = {file: file.read_text() for file in found if "must-fail" not in file.parts}
    traits = {name for text in texts.values() for name in TRAIT.findall(text)}
    for file, text in texts.items():
        rest = COMMENT.sub("", USE.sub("", text))
        words = {"", *words_of(rest)}
        for name, number in names_brought_in(text):
            if name not in traits and not is_named(name, words, rest):
                yield f"{file.relative_to(root)}:{number}", name
