"""Worked values: what the program has to answer, found by hand from what the machine, the notation and the language are.
No proof compares a definition with these: a definition that is changed together with its code is noticed here."""

# ---- commands and options

# The options that each command takes; each of the others is a fault of usage. `call` and `demo` need a word.
OPTIONS = {
    "tape": {"--limit", "--resume", "--post-mortem", "--store"},
    "run": {"--limit", "--resume", "--post-mortem", "--store"},
    "trace": {"--limit", "--resume", "--store"},
    "tape1": {"--limit", "--resume"},
    "parts": {"--limit"},
    "step": {"--limit"},
    "call": {"--limit"},
    "demo": {"--limit"},
    "check-tape": {"--store"},
    "punch": {"--store"},
    "listing": {"--store"},
    "check-tape1": set(),
    "library": set(),
}
ARGUMENTS = {"call": ["print", "5"], "demo": ["1"]}
# A text that every command which reads takes or refuses by its own rules, so that only the words decide on usage.
ANY_TAPE = b"PF"
VALUES = {"--limit": "1000", "--resume": "1", "--post-mortem": "144,1", "--store": "512"}

# The least and the greatest number that each place takes, with the words around it. A number has up to nine figures.
RANGES = [
    (["tape", "--limit", "{}"], 1, 100_000_000),
    (["tape", "--resume", "{}"], 0, 1000),
    (["tape", "--post-mortem", "{},0"], 144, 1024),
    (["tape", "--post-mortem", "144,{}"], 0, 880),
    (["tape", "--store", "512", "--post-mortem", "144,{}"], 0, 368),
    (["call", "print", "{}"], 0, 65_535),
    (["call", "read", "{}"], 0, 65_535),
    (["call", "root", "{}"], 0, 65_535),
    (["call", "check", "{}"], 0, 65_535),
    (["call", "divide", "{}", "7"], 0, 7 * 65_536 - 1),
    (["call", "divide", "{}", "32767"], 0, 999_999_999),
    (["call", "divide", "0", "{}"], 1, 32_767),
    (["demo", "{}"], 1, 112),
]
# Words that are no number, or no size of a store.
NO_NUMBERS = ["", "+1", "-1", "1.0", "1e3", "0x9", " 9", "9 ", "0000000009"]
NO_SIZES = ["0", "256", "511", "513", "1023", "2048"]

# What calls print. Of a division first the quotient and then the remainder, by paper and pencil.
CALLS = [
    (["call", "print", "1949"], b"1949"),
    (["call", "read", "10"], b"10"),
    (["call", "root", "65024"], b"254"),  # 255 times 255 is 65,025
    (["call", "root", "65025"], b"255"),
    (["call", "divide", "0", "1"], b"0\r\n0"),
    (["call", "divide", "1", "32766"], b"0\r\n1"),
    (["call", "divide", "458751", "7"], b"65535\r\n6"),
    (["call", "divide", "999999999", "32767"], b"30518\r\n16693"),  # 30,518 times 32,767 is 999,983,306
    (["demo", "000000001"], b"339"),
]

# ---- the machine

# A loader's cost is 5, and for each item: 6, 9 for each figure, 15 for π, and 16 for K or 17 for another last row.
MACHINE = [
    # E at 64 is long and jumps as a short one does, over the Z at 65.
    ("E n D jumps", ["tape"], b"T64KGKE66DZFO68FZFAFEZPF", (0, b"A", b"stopped at 68 after 267\n")),
    # The accumulator is -2, so G jumps over the Z at 66.
    ("G n D jumps", ["tape"], b"T64KGKS69FG67DZFO70FZFP1FAFEZPF", (0, b"A", b"stopped at 69 after 341\n")),
    # The multiplier and the word are all ones, so C adds the sign digit too, and G jumps over the Z at 67.
    ("C adds the sign digit", ["tape"], b"T64KGKH70FC70FG68FZFO71FZFV2047DAFEZPF", (0, b"A", b"stopped at 70 after 410\n")),
    # What -1 and the multiplier 2^-16 have in common is 1 in the last of 17 digits.
    (
        "C keeps common digits",
        ["tape", "--post-mortem", "144,1"],
        b"T64KGKH68FC69FT144FZFPDV2047DEZPF",
        (0, b"P0D\r\n", b"stopped at 68 after 354\n"),
    ),
]

# An endless loop ends at the limit that holds if no limit is given.
DEFAULT_LIMIT = ("no limit", ["tape"], b"T64KGKE@EZPF", (4, b"", b"limit at 64 after 10000000\n"))

# ---- the notation of tapes

NOTATION = [
    # A number before K may be up to 1023.
    ("P 1024 K", ["check-tape"], b"P1024K", (3, b"", b"row 5: N7 store end\n")),
    ("E 1024 K", ["check-tape"], b"E1024K", (3, b"", b"row 5: N7 store end\n")),
    ("T 1024 K", ["check-tape"], b"T1024K", (3, b"", b"row 5: N7 store end\n")),
    ("blank 1024 K", ["check-tape"], b".1024K", (3, b"", b"row 5: N7 store end\n")),
    ("P 1023 K", ["check-tape"], b"P1023K", (3, b"", b"row 6: N1 end of tape\n")),
]

# A program at 100 spoils a location, takes T 200 F into the accumulator and jumps to 25. 5 orders after its entry the loader
# waits at 34; 3 orders after it the machine has returned, if all that the loader needs is as it was.
RETURNING = b"T100KGKT%dFA3@E25FT200FE100KPF"
NEEDED = [2, 3, 19, 21, 23, 24, 38, 39, 43]
SPARE = [0, 1, 20, 22, 40, 41, 42, 44]


def returns():
    for at in NEEDED + SPARE:
        cost, rows = 312 - 9 * (at < 10), 30 - (at < 10)
        entry = b"entry 100 after %d orders, %d rows\n" % (cost, rows)
        if at in NEEDED:
            want = (6, entry, b"no tape at 34 after %d\n" % (cost + 5))
        else:
            returned = b"returned for 200 after %d orders\n" % (cost + 3)
            want = (3, entry + returned, b"part 2, row %d: N1 end of tape\n" % rows)
        yield f"a return with {at} spoilt", ["parts"], RETURNING % at, want


PARTS = [
    *returns(),
    (
        "a jump to 25 with 25 spoilt",
        ["parts"],
        RETURNING % 25,
        (5, b"entry 100 after 312 orders, 30 rows\n", b"no order at 25 after 315: PF\n"),
    ),
    (
        "a return with another multiplier",
        ["parts"],
        b"T100KGKH100FA3@E25FT200FE100KPF",
        (6, b"entry 100 after 321 orders, 31 rows\n", b"no tape at 34 after 326\n"),
    ),
    (
        "a return with T 200 D",
        ["parts"],
        b"T100KGKO4@A3@E25FT200DAFE100KPF",
        (6, b"entry 100 after 326 orders, 31 rows\n", b"no tape at 34 after 331\n"),
    ),
    (
        "a return with E 200 F",
        ["parts"],
        b"T100KGKO4@A3@E25FE200FAFE100KPF",
        (6, b"entry 100 after 326 orders, 31 rows\n", b"no tape at 34 after 331\n"),
    ),
    (
        "a return for the loader's own store",
        ["parts"],
        b"T100KGKO4@A3@E25FT0FAFE100KPFGKZFE200KPF",
        (3, b"entry 100 after 308 orders, 29 rows\nreturned for 0 after 311 orders\n", b"part 2, row 32: N6 loader store\n"),
    ),
    (
        "a return for the last location of the loader",
        ["parts"],
        b"T100KGKO4@A3@E25FT43FAFE100KPFGKZFE200KPF",
        (3, b"entry 100 after 317 orders, 30 rows\nreturned for 43 after 320 orders\n", b"part 2, row 33: N6 loader store\n"),
    ),
]

# ---- what is refused: for each cause a text that has it, and where

# The numbers of a source's faults, each with its line and a source.
SOURCE_FAULTS = {
    1: (2, b"segment m\nZ F ; \xc3\xa9\nenter m\n"),
    2: (2, b"segment m\nZ F ;" + b"x" * 116 + b"\nenter m\n"),
    3: (2, b"segment m\nz F\nenter m\n"),
    4: (2, b"segment m\nA 32768 F\nenter m\n"),
    5: (2001, b"segment m\n" + b"\n" * 1999 + b"enter m\n"),
    6: (3, b"segment m\na: Z F\na: Z F\nenter m\n"),
    7: (2, b"segment m\nA nowhere F\nenter m\n"),
    8: (3, b"segment m\na: Z F\nA a-1000 F\nenter m\n"),
    9: (1, b"a:\nsegment m\nZ F\nenter m\n"),
    10: (2, b"segment m at 20\nZ F\nenter m\n"),
    11: (2, b"segment m at 50\nZ F\nenter m\n"),
    12: (3, b"segment m at 1023\nZ F\nZ F\nenter m\n"),
    13: (5, b"segment m at 60\nZ F\nsegment t at 59\nZ F\nZ F\nenter m\n"),
    14: (3, b"segment m\nZ F\nuse sine as s\nenter m\n"),
    15: (3, b"segment m\nZ F\nuse newline as n with H=5\nenter m\n"),
    16: (4, b"segment m\nZ F\nenter m\nZ F\n"),
    17: (3, b"version 2\nsegment m\nlong -1\nZ F\nenter m\n"),
}

# The other causes: the command, a text, and what comes before the cause in the note.
OTHER_FAULTS = {
    "T1": ("tape", b"T64K%", "byte 4"),
    "T2": ("tape", b"PF[x", "byte 2"),
    "N1": ("check-tape", b"T64KZF", "row 6"),
    "N2": ("check-tape", b"PS", "row 1"),
    "N3": ("check-tape", b"P32768F", "row 5"),
    "N4": ("check-tape", b"A2##@", "row 3"),
    "N5": ("check-tape", b"A5K", "row 2"),
    "N6": ("check-tape", b"T20KPF", "row 5"),
    "N7": ("check-tape", b"T1023KPFPF", "row 9"),
    "N8": ("check-tape", b"PKAF", "row 3"),
    "N9": ("check-tape", b"E64KAF", "row 5"),
    "N10": ("check-tape", b"EZPF", "row 3"),
    "K1": ("check-tape1", b"T35SO34SZSA", "row 11"),
    "K2": ("check-tape1", b"T3#", "row 2"),
    "K3": ("check-tape1", b"T33SP32768SAS", "row 9"),
    "K4": ("check-tape1", b"PSAS", "row 1"),
}
