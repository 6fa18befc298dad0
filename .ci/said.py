"""What the pages and the texts of help say of options, ranges and statuses, beside what was worked out by hand. The program
is tried with the same numbers."""
import re
import subprocess
import sys

sys.dont_write_bytecode = True
import tree
import worked

# A word that the sentence on each status has to have, and the note that goes with it in the manual.
STATUSES = {
    0: ("stop", "stopped at C after K"),
    1: ("not run", "edsac: .."),
    2: ("not a command", "usage: .."),
    3: ("refused", "line L: S.."),
    4: ("limit", "limit at C after K"),
    5: ("not an order", "no order at C after K: TEXT"),
    6: ("tape", "no tape at C after K"),
    7: ("1,000,000", "paper full at C after K"),
    8: ("could not be read", "read fault"),
    9: ("could not be written", "none"),
    10: ("memory", "no memory"),
    11: ("262,144", "input too long"),
}
# What is said of the numbers of each option, and of `demo`.
PHRASES = {
    "--limit": ["1 to 100,000,000", "10,000,000"],
    "--resume": ["0 to 1000"],
    "--store": ["512 or 1024", "1024"],
    "demo": ["1 to 112"],
}


def by_hand():
    """The phrases are those of the numbers with which the program is tried."""
    tried = {words[-2] if words[-2].startswith("--") else words[0]: (least, most) for words, least, most in worked.RANGES}
    for name in ("--limit", "--resume", "demo"):
        least, most = tried[name]
        yield f"the range of {name}", PHRASES[name][0].replace(",", ""), f"{least} to {most}"


def manual():
    """The tables of docs/MANUAL.md: the options with their commands, and the statuses with their notes."""
    page = tree.ROOT / "docs/MANUAL.md"
    told = {}
    for name, text, commands in tree.rows(tree.part(page, "The options")):
        option = re.match(r"`(--[\w-]+)", name)[1]
        told[option] = set(re.findall(r"`([\w-]+)`", commands))
        yield from phrases(f"docs/MANUAL.md: {option}", option, text)
    yield from taken("docs/MANUAL.md", told)
    rows = tree.rows(tree.part(page, "How it ended: statuses and notes"))
    statuses = [row for row in rows if row[0].isdigit()]
    yield "the statuses of docs/MANUAL.md", {int(row[0]) for row in statuses}, set(STATUSES)
    for row in statuses:
        notes = [note for _, note in STATUSES.values()]
        yield f"docs/MANUAL.md: the note {row[1]}", row[1].split("`, ")[0].strip("`") in {*notes, "none, or a part"}, True
    for number, (_, note) in STATUSES.items():
        found = [row for row in statuses if int(row[0]) == number]
        yield f"docs/MANUAL.md: the note of status {number}", any(note in row[1] for row in found), True


def manual_page():
    """The manual page: its synopsis, its options and its statuses."""
    text = (tree.ROOT / "docs/edsac.1").read_text().replace("\\-", "-")
    synopsis = text.split(".SH SYNOPSIS")[1].split(".SH")[0].split(".br")
    told = {option: set() for option in worked.VALUES}
    for line in synopsis:
        command = re.search(r"\.B edsac ([\w-]+)", line)[1]
        for option in re.findall(r"\[ (--[\w-]+)", line):
            told[option].add(command)
    yield from taken("docs/edsac.1", told)
    parts = re.split(r"^\.TP$", text.split(".SH OPTIONS")[1].split(".SH")[0], flags=re.M)
    for option in worked.VALUES:
        yield from phrases(f"docs/edsac.1: {option}", option, next(part for part in parts if option in part))
    yield from phrases("docs/edsac.1: demo", "demo", text)
    yield from sentences("docs/edsac.1", re.findall(r"\.B (\d+)\n(.*)", text.split(".SH EXIT STATUS")[1].split(".SH")[0]))


def help_text():
    """What `./edsac --help` shows."""
    text = subprocess.run([tree.ROOT / "edsac", "--help"], capture_output=True, text=True, check=True).stdout
    told = {}
    for option, part in re.findall(r"^  (--(?:limit|resume|post-mortem|store)) (.*?)(?=^  -|\n\n)", text, re.M | re.S):
        told[option] = set(re.search(r"\(([\w, -]+)\)\s*$", part)[1].split(", "))
        yield from phrases(f"--help: {option}", option, part)
    yield from taken("--help", told)
    yield from phrases("--help: demo", "demo", text)
    yield from sentences("--help", re.findall(r"^  ( ?\d+)  (.*)", text, re.M))


def taken(where, told):
    """Each option with the commands that take it."""
    for option in worked.VALUES:
        wanted = {command for command, options in worked.OPTIONS.items() if option in options}
        yield f"{where}: the commands that take {option}", told.get(option), wanted


def phrases(where, name, text):
    flat = " ".join(text.split())
    for phrase in PHRASES.get(name, ()):
        yield f"{where}: {phrase}", phrase in flat, True


def sentences(where, found):
    """A sentence on each status."""
    told = {int(number): text for number, text in found}
    yield f"{where}: the statuses", set(told), set(STATUSES)
    for number, (word, _) in STATUSES.items():
        yield f"{where}: status {number}: {word}", word in told.get(number, ""), True


CHECKS = (by_hand, manual, manual_page, help_text)
