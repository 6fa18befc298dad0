"""What the scripts of this folder share: the crates of crates.txt, copies of them in which `rt ci` proves them, their code,
the pages, and runs of the program and of `rt`."""
import itertools
import os
import re
import shutil
import signal
import subprocess
import sys
from pathlib import Path

ROOT = Path(__file__).resolve().parent.parent
CRATES = ROOT / "crates"
# The parts of a crate that a proof of it reads.
PARTS = ("src", "specs", "proofs")
PROGRAM = "edsac"
BUILT = CRATES / PROGRAM / "out" / PROGRAM
# How long an answer of the program may take.
SECONDS = 60
# The beginning of an item of code, of a type, and of a definition in `specs/`, with its name.
ITEM = re.compile(r'pub (?:const |unsafe |extern "C" )?(fn|struct|enum|trait|const|static|type) (\w+)')
# Words that stand between `pub` and the name of an item that is not read, as in `pub static mut`.
KEYWORDS = {"async", "extern", "fn", "mut", "unsafe"}
TYPE = re.compile(r"^(?:pub(?:\(crate\))? )?(?:struct|enum|trait) (\w+)", re.M)
DEFINED = re.compile(r"^(?:abbrev pub|unfoldable pub|pub record|pub data|pub(?! mod)) ([^ :({]+)", re.M)

# ---- the crates


def stands_on():
    """The crates of crates.txt in its order, each with the crates of the repository that its line names."""
    lines = {}
    for line in (ROOT / "crates.txt").read_text().splitlines():
        name, colon, others = line.split("#")[0].partition(":")
        if colon:
            lines[name.split()[0]] = others.split()
    return {name: [other for other in others if other in lines] for name, others in lines.items()}


def below(name, crates):
    """The crates that a crate depends on, directly or through others."""
    return set(crates[name]).union(*(below(other, crates) for other in crates[name]))


def nearest(name, crates):
    """The crates that a crate depends on directly and through no other, in the order of its line."""
    return [other for other in crates[name] if not any(other in below(third, crates) for third in crates[name])]


def files(name):
    """The files of a crate that a proof of it reads."""
    return [path for part in PARTS for path in (CRATES / name / part).rglob("*") if path.is_file()]


def head(name):
    """The two parts of the `//!` lines at the head of a crate's root file: what the crate is, and its contract."""
    source = CRATES / name / "src"
    root = source / ("main.rt" if (source / "main.rt").exists() else "lib.rt")
    lines = itertools.takewhile(lambda line: line.startswith("//!"), root.read_text().splitlines())
    parts = " ".join(line[3:].strip() or "\n" for line in lines).split("\n")
    return [part.strip() for part in parts]


def described(name):
    """The layer of a crate and its contract in a line, by its root file: `Layer: what it is.` and `Contract: in a line.`
    The contract of a crate of tests is what it tries, which is said after `Tests:`."""
    layer, colon, rest = head(name)[0].partition(": ")
    said = re.match(r"Contract: (.*?)\.(?: |$)", head(name)[-1])
    if not colon or not (said or layer == "Tests"):
        sys.exit(f"{name}: its root file doesn't begin with `Layer: what it is.` and `Contract: in a line.`")
    small = layer if layer.startswith("Initial") else layer[0].lower() + layer[1:]
    return small, said.group(1) if said else rest.rstrip(".")


def crates_table():
    """The rows of the table of crates: each crate, its layer, its contract in a line, and what it stands on."""
    crates = stands_on()
    others = {name: ", ".join(f"`{other}`" for other in nearest(name, crates)) or "none" for name in crates}
    return [(f"`{name}`", *described(name), others[name]) for name in crates]


def size(name):
    """The lines of a crate, by which the time of its proof is estimated."""
    return sum(path.read_bytes().count(b"\n") for path in files(name))


def copy(names, to):
    """Copies some crates into an empty folder, without their must-fail edits and without what was made of them."""
    (to / ".git").mkdir()  # rt takes a folder with this in it as the top of a repository
    shutil.copyfile(ROOT / "HANDLES", to / "HANDLES")
    lines = (ROOT / "crates.txt").read_text().splitlines(keepends=True)
    (to / "crates.txt").write_text("".join(line for line in lines if re.split(r"[ :]", line)[0] in names))
    for name in names:
        copy_crate(name, to)


def copy_crate(name, to):
    """Copies one crate in the same way, beside those that are there."""
    shutil.copytree(CRATES / name, to / "crates" / name, ignore=lambda at, found: {"out", "must-fail"} & set(found))


def kit():
    """The folder of the kit."""
    return Path(subprocess.run(["rt", "doc"], capture_output=True, text=True, check=True).stdout.strip()).parent


def line(name, top=ROOT):
    """A crate's line in the crates.txt of a folder."""
    return next(line for line in (top / "crates.txt").read_text().splitlines() if re.split(r"[ :]", line)[0] == name)


def prover(verb, name, libraries=None):
    """The words by which the prover checks or builds a crate, over the libraries in a folder, or over those that `rt` has
    built."""
    home = kit()
    kind, _, others = line(name).partition(":")
    crates = stands_on()
    built = lambda other: (libraries or CRATES / other / "out/rlib" if other in crates else home / "rlibs") / f"{other}.rlib"
    root = "src/main.rt" if (CRATES / name / "src/main.rt").exists() else "src/lib.rt"
    words = [str(home / "bin/rattle"), verb, "--crate-name", name, root]
    for other in ["std", *others.split()]:
        words += ["--extern", f"{other}={built(other)}"]
    for folder in dict.fromkeys([home / "rlibs", *(built(other).parent for other in sorted(below(name, crates)))]):
        words += ["-L", f"dependency={folder}"]
    words += ["--crate-type", "staticlib"] * ("staticlib" in kind)
    logic = ["--antt-project", str(home / "rattle/logic/antt-project.json"), "--logic-built", str(home / "logic_built")]
    return [*words, *logic]


# ---- their code


def sources(name):
    """The files of a crate's code."""
    return sorted((CRATES / name / "src").rglob("*.rt"))


def lines_above_tests(path):
    """The lines of a file of code down to its tests."""
    return list(itertools.takewhile(lambda line: line != "#[cfg(test)]", path.read_text().splitlines()))


def without_generics(text):
    """A line without what is in angle brackets, as `impl Sink for StdSink` of `impl<W: Write> Sink for StdSink<W>`."""
    kept, depth = [], 0
    for at, sign in enumerate(text):
        if sign == "<":
            depth += 1
        elif sign == ">" and text[at - 1] != "-":
            depth -= 1
        elif depth == 0:
            kept.append(sign)
    return "".join(kept)


def exported(name):
    """The names that the root file of a library declares or passes on from its own files, apart from those of its public
    modules."""
    names = {item.group(2) for item in map(ITEM.match, lines_above_tests(root_file(name))) if item}
    return names | {passed for source, passed in passed_on(name) if source not in stands_on()}


def passed_on(name):
    """The names that the root file of a library passes on, each after the module or the crate that it is taken from."""
    for path, group in re.findall(r"^pub use ([\w:]+)::(\{[^}]*\}|\w+);", root_file(name).read_text(), re.M):
        for passed in filter(None, (part.strip() for part in group.strip("{}").split(","))):
            yield path.partition("::")[0], passed


def root_file(name):
    """The root file of a library."""
    return CRATES / name / "src" / "lib.rt"


def unread(name):
    """Each line of a library's code with a form that the readers of its surface don't read: it could make an item public
    that they don't see. The files are in the layout of `rt fmt`."""
    passed_on = r"pub use [\w:]+::(\w+|\{[\w,\s]*\});"
    wrong = {
        r"\s*(pub(\(\w+\))? )?mod \w+ \{": "a module within a file",
        r"\s+(unsafe )?impl\b": "an impl within another item",
        r"\s*#\[macro_export\]": "a macro that is exported",
        r"#!?\[[^\]]*\] *\w": "an attribute and an item in one line",
    }
    for path in sources(name):
        text = path.read_text()
        lines, above = text.splitlines(), len(lines_above_tests(path))
        starts = itertools.accumulate((len(line) + 1 for line in lines), initial=0)
        for number, (line, start) in enumerate(zip(lines, starts), 1):
            found = None
            if number > above:
                found = "an item below the tests" if re.match(r"(pub|impl|unsafe)\b", line) else None
            elif line.startswith("pub use "):
                found = None if re.compile(passed_on).match(text, start) else "items passed on under other names or by a pattern"
            elif line.startswith("pub ") and not re.fullmatch(r"pub mod \w+;", line):
                item = ITEM.match(line)
                found = None if item and item.group(2) not in KEYWORDS else "a form of public item"
            else:
                found = next((what for form, what in wrong.items() if re.match(form, line)), None)
            if found:
                yield f"{path.relative_to(CRATES)}:{number}: {found}, which the readers of the surface don't read"


def public_modules(name):
    """The modules that the root file of a library declares as public. All their public items are the library's too."""
    return re.findall(r"^pub mod (\w+);", root_file(name).read_text(), re.M)


# ---- the pages


def prose(page):
    """The lines of a page that are not code."""
    return [line for line in page.read_text().splitlines() if not line.startswith("    ")]


def code(text):
    """The parts of a page's text that are indented by four blanks."""
    return re.findall(r"(?:^    .*\n)+", text, re.M)


def part(page, title):
    """The part of a page below one of its headings, up to the next one of its level or above."""
    text = page.read_text()
    heading = re.search(rf"^(#+) {re.escape(title)}\n", text, re.M)
    if not heading:
        sys.exit(f"{page.relative_to(ROOT)} has no part {title}")
    return re.split(rf"^#{{1,{len(heading[1])}}} ", text[heading.end() :], maxsplit=1, flags=re.M)[0]


def rows(text):
    """The cells of each row of a text's tables, without their heads. A stroke in code or after a backslash is text."""
    bodies = re.findall(r"^\|.*\|\n\|[-| ]+\|\n((?:\|.*\|\n)*)", text, re.M)
    found = []
    for line in "".join(bodies).splitlines():
        line = re.sub(r"`[^`]*`|\\\|", lambda kept: kept.group().replace("|", "\0"), line)
        found.append([cell.strip().replace("\0", "|") for cell in line[1:-1].split("|")])
    return found


def transcript(lines):
    """The commands of a transcript, each with what is shown below it; none if it doesn't begin with one."""
    found = []
    for line in lines:
        if line.startswith("$ "):
            found.append((line[2:], []))
        elif found:
            found[-1][1].append(line + "\n")
        else:
            break
    return [(command, "".join(shown)) for command, shown in found]


def end(script, failures, said):
    """Ends a script: with its failures, a line each, or with a line that says what was tried."""
    if failures:
        sys.exit("\n".join(f"{script}: {failure}" for failure in failures))
    print(said)


def try_all(script, checks, said):
    """Runs tries, each a name, what was got and what is wanted, and ends with those that differ or with what was tried."""
    tried, differ = 0, 0
    for check in checks:
        for name, got, want in check():
            tried += 1
            if got != want:
                differ += 1
                print(f"{script}: {name}\n  wanted {want!r}\n  got    {got!r}")
    if differ:
        sys.exit(f"{script}: {differ} of {tried} tries differ")
    print(f"{said}: {tried} tries, all as they should be.")


# ---- runs


def answer(program, words, stdin=b"", **streams):
    """The status of a run of the program, and what it wrote on the two outputs that are pipes."""
    streams["input" if isinstance(stdin, bytes) else "stdin"] = stdin
    streams.setdefault("stdout", subprocess.PIPE)
    streams.setdefault("stderr", subprocess.PIPE)
    done = subprocess.run([program, *words], timeout=SECONDS, **streams)
    return done.returncode, done.stdout, done.stderr


class Run:
    """A run of a command with its log in a file. It ends with this process, however this ends, unless it is killed."""

    def __init__(self, words, folder, log):
        self.log = log
        with open(log, "wb") as out:
            self.process = subprocess.Popen(
                words,
                cwd=folder,
                stdin=subprocess.DEVNULL,
                stdout=out,
                stderr=subprocess.STDOUT,
                start_new_session=True,
                env={**os.environ, "PYTHONUNBUFFERED": "1"},
            )

    def is_over(self, seconds):
        """Whether the run ends within some seconds."""
        try:
            self.process.wait(seconds)
        except subprocess.TimeoutExpired:
            return False
        return True

    def end(self):
        """Ends the run and all that it started."""
        if self.process.poll() is None:
            os.killpg(self.process.pid, signal.SIGTERM)
            self.process.wait()

    def lines(self):
        """What the log has so far."""
        return self.log.read_text(errors="replace").splitlines()


def end_on_signals():
    """Turns the signals that end a process into an exception, so that what was started and made is cleared away."""

    def leave(number, _):
        raise SystemExit(128 + number)

    for number in (signal.SIGTERM, signal.SIGHUP, signal.SIGINT):
        signal.signal(number, leave)
