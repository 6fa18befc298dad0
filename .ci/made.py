"""What is made of the sources: the program that was built here, and the ready files of ready/. Beside each stands MADE,
which names the kit, the tools, the sources and each file; the script edsac reads it.

    python3 .ci/made.py SUM      writes MADE beside the program that was built here, of the sources with this checksum
"""
import hashlib
import subprocess
import sys
from pathlib import Path

sys.dont_write_bytecode = True
import tree

NAME = "MADE"
READY = tree.ROOT / "ready"
READY_PROGRAM = READY / "edsac-linux-x86_64"
READY_PAGE = READY / "edsac.html"
BUILT_PAGE = tree.ROOT / "page/out/edsac.html"
# What page/build writes beside the page: the kit and wasm-opt in two lines, the sources of its modules, the page.
BUILT_PAGE_MADE = tree.ROOT / "page/out/edsac.html.made"
# The crate of each ready file, and what goes into it besides the crate and those below.
CRATES = {tree.PROGRAM: (), "ed_page": ("page/build", "page/heap.c", "page/finish.py")}


def sources(crate=tree.PROGRAM):
    """The checksum of the sources of a crate's program or module."""
    words = [tree.ROOT / ".ci/sources", crate, *CRATES[crate]]
    return subprocess.run(words, capture_output=True, text=True, check=True).stdout.strip()


def kit():
    """The line by which the kit names itself, or nothing without a kit."""
    try:
        return subprocess.run(["rt", "version"], capture_output=True, text=True, check=True).stdout.strip()
    except (OSError, subprocess.CalledProcessError):
        return ""


def digest(data):
    return hashlib.sha256(data).hexdigest()


def sources_line(crate, checksum):
    return f"sources of {crate} {checksum}"


def file_line(path):
    """The line of a file, as sha256sum writes it."""
    return f"{digest(path.read_bytes())}  {path.name}"


def lines_in(file):
    return file.read_text().splitlines() if file.is_file() else []


def note_built(checksum):
    """Notes that the program which was built here is made of the sources with a checksum."""
    lines = [f"kit {kit()}", sources_line(tree.PROGRAM, checksum), file_line(tree.BUILT)]
    tree.BUILT.with_name(NAME).write_text("\n".join(lines) + "\n")


def is_of(program, checksum):
    """Whether MADE beside a program names it, and the sources with a checksum."""
    if not program.is_file():
        return False
    return {sources_line(tree.PROGRAM, checksum), file_line(program)} <= set(lines_in(program.with_name(NAME)))


def program():
    """The program that the script edsac runs, if one is made of these sources."""
    checksum = sources()
    return next((path for path in (tree.BUILT, READY_PROGRAM) if is_of(path, checksum)), None)


def stripped(path):
    """The bytes of a program without its table of symbols, by the kit's own tool."""
    tool = tree.kit() / "toolchain/bin/clang"
    subprocess.run(["llvm-strip", "-o", f"{path}.stripped", str(path)], executable=tool, check=True)
    bare = Path(f"{path}.stripped")
    data = bare.read_bytes()
    bare.unlink()
    return data


def likeness():
    """Whether the ready program is the one that was built here, in a sentence."""
    made = lines_in(READY / NAME)
    name = READY_PROGRAM.relative_to(tree.ROOT)
    if not READY_PROGRAM.is_file():
        return f"there is no ready program {name}"
    if READY_PROGRAM.read_bytes() == stripped(tree.BUILT):
        return f"the ready program {name} is the same file, byte for byte, as this one is without its table of symbols"
    if sources_line(tree.PROGRAM, sources()) not in made:
        return f"the ready program {name} is another file, made of other sources"
    if f"kit {kit()}" not in made:
        return f"the ready program {name} is another file, made by another kit"
    return f"the ready program {name} is ANOTHER FILE, although its MADE names these sources and this kit"


if __name__ == "__main__":
    note_built(*sys.argv[1:])
