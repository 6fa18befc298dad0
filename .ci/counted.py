"""What can be counted of the tree, as the first table of bench/MEASURED.md has it: bench/measured writes it there, and
.ci/pages compares it."""
import re

import tree

PAGE = tree.ROOT / "bench/MEASURED.md"
BETWEEN = re.compile(r"(?<=<!-- counted -->\n).*?(?=<!-- end -->\n)", re.S)
TEST = re.compile(r"^\s*#\[test\]", re.M)
# The parts of a crate, and what they hold.
KINDS = {"src": "code, with its tests", "specs": "definitions, with their comments", "proofs": "proofs"}


def lines(part):
    """The lines of a part of all crates."""
    files = [path for name in tree.stands_on() for path in tree.files(name)]
    return sum(path.read_bytes().count(b"\n") for path in files if path.relative_to(tree.CRATES).parts[1] == part)


def definitions():
    """The definitions in the `specs/` of all crates."""
    return sum(len(tree.DEFINED.findall(path.read_text())) for path in tree.CRATES.glob("*/specs/**/*.antt"))


def tests():
    """The tests in the code of all crates."""
    return sum(len(TEST.findall(path.read_text())) for name in tree.stands_on() for path in tree.sources(name))


def counts():
    """Each thing that is counted, with its number."""
    scripts = [path for path in (tree.ROOT / "page").rglob("*.js") if path.parent.name != "out"]
    examples = [path for path in (tree.ROOT / "examples").iterdir() if path.suffix in (".edsac", ".tape", ".tape1")]
    return [
        ("crates, those of tests included", len(tree.stands_on())),
        *((f"lines of {what} (`{part}/`)", lines(part)) for part, what in KINDS.items()),
        ("definitions in `specs/`", definitions()),
        ("edits that must fail", len(list(tree.CRATES.glob("*/must-fail/*.edit")))),
        ("tests in the crates", tests()),
        ("examples, each with what it prints", len(examples)),
        ("lines of the page's scripts, with those that test it", sum(path.read_bytes().count(b"\n") for path in scripts)),
    ]


def table():
    """The table, as text."""
    rows = "".join(f"| {what} | {number:,} |\n" for what, number in counts())
    return f"| what | how many |\n|---|---|\n{rows}"


def with_table(text):
    """The text of the page with this table in its place."""
    return BETWEEN.sub(lambda _: table(), text)
