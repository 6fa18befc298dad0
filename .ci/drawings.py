"""The pictures of docs/pictures, drawn from what the program answers and from crates.txt: `docs/draw PROGRAM` writes them
there, and .ci/edge compares them. Each has its own style, light and dark."""
import re
import subprocess

import tree

FOLDER = tree.ROOT / "docs/pictures"
# The letter of each code, in the order of the codes.
LETTERS = "PQWERTYUIOJ#SZK*.F@D!HNM&LXGABCV"
# What the holes of a row are worth; the sprocket hole comes after the third.
WORTHS = (16, 8, 4, 2, 1)
TOP = 16  # punched the other way round
STYLE = """\
  .ground { fill: #fbfaf4; } text { fill: #22281f; font: 15px sans-serif; } .small { font-size: 13px; }
  .digit { font: 15px monospace; text-anchor: middle; } .tiny { font: 9px monospace; text-anchor: middle; }
  .middle { text-anchor: middle; } .end { text-anchor: end; }
  rect, path { stroke: #6d7768; fill: none; } .a { fill: #f6dfa0; } .b { fill: #cfe3f3; } .c { fill: #d7ead0; }
  .d { fill: #f3d2cb; } .e { fill: #e7e5dc; } .hole { fill: #22281f; stroke: none; } .none { fill: none; stroke: #a2935c; }
"""
DARK = """\
  .ground { fill: #1b211d; } text { fill: #ece9db; }
  rect, path { stroke: #8b9684; } .a { fill: #6b5215; } .b { fill: #24496a; } .c { fill: #2f5a2c; }
  .d { fill: #6d3329; } .e { fill: #3a413b; } .hole { fill: #ece9db; } .none { stroke: #b9a765; }
"""


class Drawing:
    """A picture of a size, with what it shows as a sentence."""

    def __init__(self, width, height, shows):
        size = f'viewBox="0 0 {width} {height}" width="{width}" height="{height}"'
        self.head = f'<svg xmlns="http://www.w3.org/2000/svg" {size} role="img">\n'
        self.head += f"<title>{escaped(shows)}</title>\n<style>\n{STYLE}  @media (prefers-color-scheme: dark) {{\n{DARK}  }}\n</style>\n"
        self.parts = [f'<rect class="ground" width="{width}" height="{height}" style="stroke: none"/>']

    def box(self, x, y, width, height, kind):
        self.parts.append(f'<rect class="{kind}" x="{x}" y="{y}" width="{width}" height="{height}"/>')

    def text(self, x, y, words, kind=""):
        self.parts.append(f'<text class="{kind}" x="{x}" y="{y}">{escaped(words)}</text>')

    def line(self, path):
        self.parts.append(f'<path d="{path}"/>')

    def hole(self, x, y, radius, is_hole=True):
        kind = "hole" if is_hole else "none"
        self.parts.append(f'<circle class="{kind}" cx="{x}" cy="{y}" r="{radius}"/>')

    def digits(self, x, y, digits, kind, width=24, height=30, text="digit"):
        """Some digits, a box each."""
        for at, digit in enumerate(digits):
            self.box(x + at * width, y, width, height, kind)
            self.text(x + at * width + width / 2, y + height / 2 + 5 * height / 30, digit, text)

    def brace(self, x, y, width, words):
        """A bracket below some digits, with what they are."""
        self.line(f"M{x + 2} {y} v6 h{width - 4} v-6")
        self.text(x + width / 2, y + 22, words, "middle small")

    def whole(self):
        return self.head + "\n".join(self.parts) + "\n</svg>\n"


def escaped(words):
    return str(words).replace("&", "&amp;").replace("<", "&lt;")


# ---- what the program answers


def answer(program, words, text):
    """What the program prints to a text."""
    done = subprocess.run([program, *words], input=text.encode(), capture_output=True, check=True, timeout=tree.SECONDS)
    return done.stdout.decode()


def listed(program, text):
    """The words of a source's listing, by their locations, each with its order."""
    lines = [line.split() for line in answer(program, ["listing"], text).splitlines()]
    return {int(place): (int(word), order) for place, word, order in lines}


def shown(program, script, text):
    """What a script for `step` shows of a source: the numbers of its lines that begin with a name or a location."""
    told = answer(program, ["step"], f"{script}source\n{text}")
    return [int(number) for number in re.findall(r"^ *(?:acc|mult|\d+) +(\d+)", told, re.M)]


def binary(number, digits):
    return format(number, f"0{digits}b")


# ---- the pictures


def word(program):
    """The digits of an order, and those of a long word."""
    words = listed(program, "version 2\nsegment main\nA 100 F\nnumber: long 262149\nZ F\nenter main\n")
    drawing = Drawing(980, 330, "The 17 digits of the word A 100 F, and the 35 digits of a long word")
    number, order = words[56]
    digits = binary(number, 17)
    drawing.text(20, 32, f"The word {order} is the number {number:,}")
    x = 20
    for count, kind, name in ((5, "a", "function"), (1, "e", "spare"), (10, "b", "address"), (1, "d", "F or D")):
        drawing.digits(x, 46, digits[:count], kind)
        drawing.brace(x, 82, 24 * count, f"{name}, {int(digits[:count], 2)}" if count > 1 else "")
        digits, x = digits[count:], x + 24 * count
    drawing.text(20 + 24 * 5.5, 126, "spare digit", "middle small")
    drawing.text(20 + 24 * 16.5, 126, "length digit: 0 is F, 1 is D", "middle small")
    (even, _), (odd, _) = words[58], words[59]
    drawing.text(20, 190, f"The long word at 58 is the number {2**18 * odd + even:,}")
    drawing.digits(20, 204, binary(odd, 17), "b", 26)
    drawing.digits(20 + 17 * 26, 204, "0", "d", 26)
    drawing.digits(20 + 18 * 26, 204, binary(even, 17), "a", 26)
    drawing.brace(20, 240, 17 * 26, f"the odd word, at 59: {odd}, which counts {2**18:,}")
    drawing.brace(20 + 18 * 26, 240, 17 * 26, f"the even word, at 58: {even}")
    drawing.line(f"M{20 + 17.5 * 26} 238 v44")
    drawing.text(20 + 17.5 * 26, 300, "the sandwich digit, which belongs to neither", "middle small")
    return drawing


def store(program):
    """What is where in the store."""
    first = min(listed(program, "segment main\nZ F\nenter main\n"))
    drawing = Drawing(980, 190, f"The store: the loader at 0 to 43, parameters at 44 to 55, the program from {first} on")
    drawing.text(20, 32, "The store of 1,024 locations (not to scale)")
    parts = (
        (0, 170, "e", "the Initial Orders", "0 to 43"),
        (44, 130, "d", "parameters", "44 to 55"),
        (first, 290, "b", "a program; a post-mortem writes here", f"{first} to 139"),
        (140, 350, "a", "a program; a post-mortem leaves it unchanged", "140 to 1023"),
    )
    x = 20
    for begin, width, kind, what, span in parts:
        drawing.box(x, 50, width, 56, kind)
        drawing.text(x + width / 2, 75, what, "middle small")
        drawing.text(x + width / 2, 96, span, "middle small")
        drawing.line(f"M{x} 106 v14")
        drawing.text(x, 136, begin, "digit")
        x += width
    drawing.line(f"M{x} 106 v14")
    drawing.text(x - 8, 136, "1024", "digit")
    drawing.text(20, 170, f"The words of a source begin at {first}. With --store 512 the store ends after 511.", "small")
    return drawing


def accumulator(program):
    """The accumulator's 71 digits, with a short word, a long word and a product in it."""
    source = "version 2\nsegment main\nA n F\nT 0 F\nA m D\nT 0 F\nH a F\nV n F\nZ F\nn: word 5\na: word 7\nm: long 5\nenter main\n"
    script = "entry\ngo 1\nshow acc\ngo 2\nshow acc\ngo 3\nshow acc\n"
    drawing = Drawing(980, 300, "The accumulator's 71 digits: the short word 5, the long word 5, and 7 times 5")
    rows = (
        ("A n F: the short word 5, in the 17 highest digits", 17, "b"),
        ("A m D: the long word 5, in the 35 highest digits", 35, "c"),
        ("H a F, V n F: 7 times 5 is 35, sixteen places to the right of the short word", 33, "a"),
    )
    for at, ((what, count, kind), number) in enumerate(zip(rows, shown(program, script, source), strict=True)):
        digits, y = binary(number, 71), 30 + 88 * at
        drawing.text(20, y, what)
        drawing.digits(20, y + 10, digits[:count], kind, 13, 26, "tiny")
        drawing.digits(20 + 13 * count, y + 10, digits[count:], "e", 13, 26, "tiny")
        drawing.text(20 + 13 * count - 6.5, y + 52, count, "tiny")
        drawing.text(20 + 13 * 71 - 6.5, y + 52, 71, "tiny")
        drawing.text(20 + 6.5, y + 52, 1, "tiny")
    return drawing


def link(program):
    """The two orders of a call, and the order that they make at the routine's end."""
    source = (tree.ROOT / "examples/rows.edsac").read_text()
    call, last = 57, 83
    words = listed(program, source)
    numbers = shown(program, f"entry\ngo 1\ngo 1\nshow acc\nshow 3\nto 73\nshow {last}\n", source)
    taken, added, made = numbers[0] // 2**54, numbers[1], numbers[2]
    drawing = Drawing(980, 280, "A call: the order at 57 takes itself, and the routine adds 28676, which makes a jump to 59")
    rows = (
        (20, "b", "the call", ((call, words[call][1]), (call + 1, words[call + 1][1]), (call + 2, "here it returns"))),
        (380, "a", "the routine begins", ((71, words[71][1]), (72, words[72][1]))),
        (740, "c", "the routine ends", ((last, f"E{made % 4096 // 2}F"),)),
    )
    for x, kind, title, orders in rows:
        drawing.text(x, 32, title)
        for at, (place, order) in enumerate(orders):
            drawing.text(x + 30, 66 + 36 * at, place, "end small")
            drawing.box(x + 38, 46 + 36 * at, 150, 30, kind)
            drawing.text(x + 113, 66 + 36 * at, order, "digit")
    drawing.line("M208 97 H300 V61 H384 M372 55 L384 61 L372 67")
    drawing.line("M928 61 H950 V168 H300 V133 H208 M220 127 L208 133 L220 139")
    drawing.text(20, 200, f"A{call}F takes the word of its own location into the accumulator: {taken:,}. It is negative, so G jumps.", "small")
    drawing.text(20, 224, f"A3F adds the word at 3, which is {added:,}: {taken:,} + {added:,} - {2**17:,} = {made:,}.", "small")
    drawing.text(20, 248, f"As an order that is E {made % 4096 // 2} F. T{last}F puts it at the routine's end, and the accumulator is 0 again.", "small")
    drawing.text(20, 270, "At the end the accumulator is not negative, so E jumps to the order after the call.", "small")
    return drawing


def tape(_program):
    """The rows of T64K, of blank tape and of erase, as they were punched."""
    drawing = Drawing(620, 330, "Six rows of tape: T64K, blank and erase, with the top hole inverted")
    drawing.text(70, 32, "hole", "end small")
    for at, worth in enumerate(WORTHS):
        drawing.text(track(at), 32, worth, "digit")
    drawing.text(track(2.5), 32, "·", "digit")
    drawing.text(400, 32, "as digits", "small")
    drawing.text(490, 32, "code, and sign", "small")
    drawing.box(88, 44, 250, 228, "a")
    for at, sign in enumerate("T64K.*"):
        code = LETTERS.index(sign) if sign in LETTERS else int(sign)
        y = 66 + 37 * at
        for track_at, worth in enumerate(WORTHS):
            drawing.hole(track(track_at), y, 10, bool(code & worth) != (worth == TOP))
        drawing.hole(track(2.5), y, 5)
        drawing.text(400, y + 5, " ".join(binary(code, 5)), "small")
        name = {".": " (blank tape)", "*": " (erase)"}.get(sign, "" if sign in LETTERS else f", the digit {sign}")
        drawing.text(490, y + 5, f"{code}:  {LETTERS[code]}{name}", "small")
    drawing.text(20, 298, "The small holes carry the tape; they lie between the third track and the fourth.", "small")
    drawing.text(20, 320, "For the hole that is worth 16 a hole is 0, and no hole is 1.", "small")
    return drawing


def track(at):
    """Where a track of the tape lies."""
    return 112 + 44 * at + (22 if at > 2.5 else 11 if at == 2.5 else 0)


def layers(_program):
    """The crates in layers, from the bottom up, as crates.txt has them."""
    groups = []
    for line in (tree.ROOT / "crates.txt").read_text().splitlines():
        if line.startswith("#"):
            groups.append((line.lstrip("# "), []))
        else:
            groups[-1][1].append(re.split(r"[ :]", line)[0])
    drawing = Drawing(980, 40 + 46 * len(groups), "The crates in layers: each stands only on crates in its own layer or in a layer below")
    for at, (what, names) in enumerate(reversed(groups)):
        y = 20 + 46 * at
        drawing.box(20, y, 940, 38, "abcde"[at % 5])
        drawing.text(32, y + 24, what)
        drawing.text(270, y + 24, ", ".join(names), "small")
    return drawing


PICTURES = {"word": word, "store": store, "accumulator": accumulator, "link": link, "tape": tape, "layers": layers}


def drawn(program):
    """Each file of docs/pictures, with what it has to hold."""
    for name, draw in PICTURES.items():
        yield FOLDER / f"{name}.svg", draw(program).whole()
