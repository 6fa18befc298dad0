"""Writes the page as one HTML file: the drawing, the words, the languages, the lessons, the cheat sheet, the modules, and
the tapes and sources of examples/.

    python3 page/assemble.py OUT      OUT holds page64.wasm, and page32.wasm where there is one
"""
import base64
import hashlib
import json
import pathlib
import re
import sys

sys.dont_write_bytecode = True
import course

out = pathlib.Path(sys.argv[1])
here = pathlib.Path("page")

FIRST = ["letter.tape", "name.tape", "digits.tape", "hello.edsac", "squares.edsac", "roots.edsac"]
KINDS = {".tape": "tape", ".tape1": "tape1", ".edsac": "source"}
CODE = [
    "machine", "way", "hints", "words", "figures", "paint", "map", "tape", "lens", "rows", "registers", "paper",
    "travel", "moves", "sound", "endings", "sentence", "parts", "strip", "share", "address", "editor", "printing",
    "program", "below", "said", "tongues", "stories", "tour", "items", "fault", "lessons", "loaders", "guard", "kiosk",
    "kept", "keyboard", "copy", "word", "controls", "seek", "lines", "marks", "bench", "links", "listen", "page",
]


def in_script(value):
    """A value as JSON in which a browser sees no mark."""
    return json.dumps(value, ensure_ascii=False).replace("<", "\\u003c")


def module(name):
    file = out / name
    return base64.b64encode(file.read_bytes()).decode() if file.is_file() else ""


def said(text):
    """What a program does, by its first comment up to the end of its first sentence, a colon or a semicolon."""
    comment = re.match(r"(?:version 2\n)?((?:;.*\n)+|\[[^\]]*)", text).group(1)
    words = " ".join(re.sub(r"^[;\[]", "", comment, flags=re.M).split())
    return re.split(r"[.:;](?: |$)", words)[0]


def examples():
    """The tapes and sources, without the answers to the exercises."""
    files = [file for file in pathlib.Path("examples").iterdir() if file.suffix in KINDS]
    files = [file for file in files if not file.name.startswith("answer")]
    files.sort(key=lambda file: (FIRST.index(file.name) if file.name in FIRST else len(FIRST), file.name))
    texts = [(file, file.read_text("utf-8")) for file in files]
    return [{"name": file.name, "kind": KINDS[file.suffix], "says": said(text), "text": text} for file, text in texts]


def policy(page):
    """The policy of the page: it runs its own scripts and styles, by their sums, and loads nothing."""

    def sums(mark):
        texts = re.findall(rf"<{mark}>([\s\S]*?)</{mark}>", page)
        digests = [base64.b64encode(hashlib.sha256(text.encode()).digest()).decode() for text in texts]
        return " ".join(f"'sha256-{digest}'" for digest in digests)

    return "; ".join([
        "default-src 'none'", f"script-src {sums('script')} 'wasm-unsafe-eval'", f"style-src {sums('style')}",
        "img-src data:", "base-uri 'none'", "form-action 'none'",
    ])


def version():
    """The newest version of CHANGELOG.md, if a heading has one."""
    found = re.search(r"^## +(\d+\.\d+(?:\.\d+)?)\b", pathlib.Path("CHANGELOG.md").read_text("utf-8"), re.M)
    return found.group(1) if found else ""


code = [
    "'use strict';",
    f"const MODULES = {in_script({'wide': module('page64.wasm'), 'narrow': module('page32.wasm')})};",
    f"const VERSION = {in_script(version())};",
    f"const EXAMPLES = {in_script(examples())};",
    f"const LESSONS = {in_script(course.lessons())};",
    f"const SHEETS = {in_script(course.sheets())};",
    f"const LANGUAGES = {in_script(course.texts('languages'))};",
    f"const EXAMPLES_SAY = {in_script(course.texts('examples'))};",
    f"const LOADERS = {in_script(course.texts('loaders'))};",
    *[(here / f"{name}.js").read_text("utf-8").replace("'use strict';\n", "", 1) for name in CODE],
]
parts = {
    "/*STYLE*/": "\n".join((here / f"{name}.css").read_text("utf-8") for name in ("page", "bench")),
    "/*CODE*/": "\n".join(code),
}
page = (here / "page.html").read_text("utf-8")
for mark, text in parts.items():
    if page.count(mark) != 1:
        sys.exit(f"page/assemble.py: page.html must have {mark} once")
    if re.search(r"</(script|style)|<!--", text):
        sys.exit(f"page/assemble.py: the text of {mark} would end before its end")
    page = page.replace(mark, text)
page = page.replace("/*VERSION*/", version())
page = page.replace("/*POLICY*/", policy(page))
(out / "edsac.html").write_text(page, "utf-8")
