"""The course as the web page has it: each lesson in each language, without what is done at a terminal and without the
answer; the tables that the lessons name; and for each answer the sums of what its program prints or stores.

A block of a course begins with a bold phrase of its language: what is done on the page, with the list behind it; what is
done at a terminal, with the transcripts behind it; and the answer, with all that follows it in its lesson.
"""
import json
import re
from pathlib import Path

from markdown import html_of

ROOT = Path(__file__).resolve().parent.parent
ITEM = re.compile(r"^(?:- |\d+\. )", re.M)
ORDERS, CODES, MORE_CODES = range(3)  # the tables of a cheat sheet


def texts(folder):
    """The texts of a folder of the page, a file for each language."""
    return {file.stem: json.loads(file.read_text("utf-8")) for file in sorted((ROOT / "page" / folder).glob("*.json"))}


def sum_of(text):
    """FNV-1a of 64 bits, as page/lessons.js has it."""
    value = 14695981039346656037
    for byte in text.encode():
        value = (value ^ byte) * 1099511628211 % 2**64
    return f"{value:016x}"


def due(number):
    """What the answer to an exercise shows, as sums: of each line of its paper, or if it prints nothing, of its words or
    of its word at 144."""
    shown = (ROOT / f"examples/answer{number}.edsac.shown").read_text("utf-8").splitlines()
    printed = shown[1 : next(k for k, line in enumerate(shown) if line.startswith("entered"))]
    listed = [line.split()[2] for line in shown if re.fullmatch(r" +\d+ +\d+ \S+", line)]
    kind, texts = ("words", listed[1:]) if listed else ("place" if "--post-mortem 144,1" in shown[0] else "paper", printed)
    return {"kind": kind, "sums": [sum_of(text) for text in texts]} | ({"place": 144} if kind == "place" else {})


def chunks(text):
    """The paragraphs, lists, tables and transcripts of a text."""
    return re.split(r"\n\n+", text.strip("\n"))


class Course:
    """A course in a language: `words` has its file and the phrases with which its blocks begin."""

    def __init__(self, words):
        self.words = words
        self.text = (ROOT / words["file"]).read_text("utf-8")
        self.programs = dict(re.findall(r"^\| \[(\d+)\].*\| (.*) \|$", self.text, re.M))

    def begins(self, chunk, kind):
        return chunk.startswith(f"**{self.words[kind]}**")

    def lessons(self):
        """The number, the title and the text of each lesson."""
        return re.findall(r"^## (\d+)\. (.*)\n([\s\S]*?)(?=^## )", self.text, re.M)

    def blocks(self, text):
        """The chunks of a text up to its answer, each with what it is: `page`, `terminal` or nothing."""
        kind = ""
        for chunk in chunks(text):
            goes_on = (kind == "page" and ITEM.match(chunk)) or (kind == "terminal" and chunk.startswith("    "))
            if self.begins(chunk, "answer"):
                return
            if not goes_on:
                kind = next((one for one in ("page", "terminal") if self.begins(chunk, one)), "")
            yield kind, chunk.removeprefix(f"**{self.words[kind]}**").strip() if kind == "page" else chunk

    def html(self, text):
        """A part of a lesson as the page shows it."""
        made, last = [], ""
        for kind, chunk in self.blocks(text):
            if kind == "page" and last != "page":
                made.append('<div class="doing">')
            if kind != "page" and last == "page":
                made.append("</div>")
            made += [html_of(chunk, 2)] if kind != "terminal" and chunk else []
            last = kind
        return "\n".join(made + ["</div>"] * (last == "page"))

    def steps(self, text):
        """What is to be done on the page: each item of a list, or the paragraph."""
        done = [chunk for kind, chunk in self.blocks(text) if kind == "page" and chunk]
        return [step.strip() for chunk in done for step in ITEM.split(chunk) if step.strip()]

    def transcripts(self, text):
        """The commands of the lesson and what a terminal shows of them, also behind the answer."""
        return [chunk for chunk in chunks(text) if chunk.startswith("    $ ")]

    def named(self, number, lesson):
        """The programs of a lesson, without the answer."""
        names = re.findall(r"`([\w.]+)`", self.programs[number]) + re.findall(r"examples/([\w.]+)", lesson)
        return [name for name in dict.fromkeys(names) if not name.startswith("answer")]


def lessons():
    """The lessons, each with its programs, what is due, and its texts in each language."""
    made = {}
    for name, words in texts("languages").items():
        course = Course(words["course"])
        for number, title, text in course.lessons():
            lesson, exercise = text.split(f"### {course.words['exercise']}")
            asked = course.html(exercise)
            one = {"number": int(number), "programs": course.named(number, lesson), "due": due(number), "texts": {}}
            made.setdefault(number, one)["texts"][name] = {
                "title": title, "exercise": asked,
                "html": f"{course.html(lesson)}\n<h3>{course.words['exercise']}</h3>\n{asked}",
            }
    return list(made.values())


def sheets():
    """The cheat sheets, each whole and with the two tables that the lessons name."""
    made = {}
    for name, words in texts("languages").items():
        text = (ROOT / words["course"]["sheet"]).read_text("utf-8")
        parts = chunks(text)
        tables = [k for k, part in enumerate(parts) if part.startswith("|")]
        cut = lambda first, last: html_of("\n\n".join(parts[tables[first] - 1 : tables[last] + 1]), 2)
        made[name] = {"whole": html_of(text, 2), "orders": cut(ORDERS, ORDERS), "codes": cut(CODES, MORE_CODES)}
    return made
