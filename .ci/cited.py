"""The names of the code that the pages cite: crates, their items, the clauses of contracts, definitions and lemmas."""
import re
import sys
from functools import cache

sys.dont_write_bytecode = True
import tree

# A name in code that is surely one of the code: it has a capital and then a small letter, or an underscore.
NAME = re.compile(r"`([A-Z][a-z]\w*|[a-z0-9]+_\w+)`")
CLAUSES = re.compile(r"\b[Cc]lauses? ((?:`\w+`(?:, and |, | and )?)+)")
# The clauses of one call, as in `ed_run::run`, clauses `ends`, `run_end`.
OF_A_CALL = re.compile(r"`(ed_\w+)::(?:\w+::)*(\w+)`, clauses? ((?:`\w+`(?:, and |, | and )?)+)")
# The same in a table, as in `page_listing`, `page_punch`: `IsTextWritten`, `law`.
LISTED = re.compile(r"((?:`[\w:]+`(?:, and |, | and )?)+): ((?:`\w+`(?:, and |, | and )?)+)")
PATH = re.compile(r"`(ed_\w+)::((?:\w+::)*\w+)`")
# Words of Rust and its library, and of the scripts, that pages cite as they cite names of the code.
OTHERS = set("Clone Copy Debug Drop FnMut FnOnce PartialEq None IfOk push_str split_first is_reader has_NAME".split())
ITEM = re.compile(r"\b(?:fn|struct|enum|trait|const|static|type|mod|ghost) (\w+)")
MEMBER = re.compile(r"^ +(?:pub )?(\w+)[,:({]", re.M)
LEMMA = re.compile(r"^ *(?:(?:pub|abbrev|unfoldable|record|data|macro|module) )*([^ :({]+)", re.M)


@cache
def clauses(name):
    """The clauses of each function of a crate."""
    found = {}
    for path in tree.sources(name):
        for function, rest in re.findall(r"\bfn (\w+)((?:(?!\bfn \w).)*)", path.read_text(), re.S):
            found.setdefault(function, set()).update(re.findall(r"\bensures (\w+) \{", rest))
    return found


@cache
def names():
    """The names that the code, the definitions and the proofs of all crates give, those of their files and of the edits."""
    found = set(tree.stands_on()) | OTHERS
    for crate in tree.CRATES.iterdir():
        found |= {path.stem for path in crate.rglob("*") if path.suffix in (".antt", ".edit", ".rt")}
        for path in tree.files(crate.name):
            text = path.read_text()
            forms = (ITEM, MEMBER) if path.suffix == ".rt" else (LEMMA, MEMBER)
            found |= set(re.findall(r"\bensures (\w+) \{", text))
            for form in forms:
                found |= set(form.findall(text))
    return found


def wrong(text):
    """What a page cites of the code that isn't there."""
    crates = tree.stands_on()
    every = set().union(*(own for crate in crates for own in clauses(crate).values()))
    for crate in re.findall(r"\bed_\w+\b(?!\.\.)", text):
        if crate not in crates:
            yield f"no crate {crate}"
    for crate, path in PATH.findall(text):
        code = "".join(source.read_text() for source in tree.sources(crate)) if crate in crates else ""
        if not re.search(rf"\b{path.rpartition('::')[2]}\b", code):
            yield f"{crate} has no {path}"
    for crate, function, listed in OF_A_CALL.findall(text):
        for clause in set(re.findall(r"`(\w+)`", listed)) - clauses(crate).get(function, set()):
            yield f"{crate}::{function} has no clause {clause}"
    for functions, listed in LISTED.findall(text):
        called = {path.rpartition("::")[2] for path in re.findall(r"`([\w:]+)`", functions)}
        own = set().union(*(clauses(crate).get(function, set()) for crate in crates for function in called)) or every
        for clause in set(re.findall(r"`([a-z]\w*)`", listed)) - own:
            yield f"{', '.join(sorted(called))} has no clause {clause}"
    for listed in CLAUSES.findall(text):
        for clause in set(re.findall(r"`(\w+)`", listed)) - every - names():
            yield f"no clause {clause}"
    for name in NAME.findall(text):
        if name not in names():
            yield f"no name {name}"
