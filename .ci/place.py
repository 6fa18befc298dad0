"""Folders like this repository, with the script edsac and a program that it finds there, for what tries the script."""
import os
import pty
import shutil
import subprocess
import sys
from pathlib import Path

sys.dont_write_bytecode = True
import tree

COMMANDS = "run punch listing tape check-tape call demo library tape1 check-tape1 parts step trace".split()
USAGE = b"usage: edsac COMMAND [--limit N] [--resume N] [--post-mortem FROM,COUNT] [--store SIZE]\n"
KIT = "a kit for tries"
# A program over one crate, and another crate on which it doesn't stand.
SOURCES = {
    "crates.txt": "# the machine\ned_low:\nedsac: ed_low\ned_page staticlib: ed_low\ned_other: ed_low\n",
    "crates/ed_low/src/lib.rt": "low\n",
    "crates/ed_low/specs/Low.antt": "low\n",
    "crates/ed_low/proofs/low/Answers.antt": "low\n",
    "crates/edsac/src/main.rt": "main\n",
    "crates/ed_page/src/lib.rt": "page\n",
    "crates/ed_other/src/lib.rt": "other\n",
    "page/build": "build\n",
    "page/heap.c": "heap\n",
    "page/finish.py": "finish\n",
}
# What the script uses of the system.
TOOLS = "sh cat cut date dirname find grep head mkdir mv readlink rm sed sha256sum sort tail tr wc xargs".split()


def make(folder, program):
    """Makes a small repository in a folder, with a ready program of its sources."""
    for name, text in SOURCES.items():
        (folder / name).parent.mkdir(parents=True, exist_ok=True)
        (folder / name).write_text(text)
    for name in ("edsac", ".ci/sources", "CHANGELOG.md"):
        (folder / name).parent.mkdir(exist_ok=True)
        shutil.copy(tree.ROOT / name, folder / name)
    put_ready(folder, program)
    return folder


def put_ready(folder, program):
    """Puts a program into a repository as the ready one of its sources."""
    put(folder / "ready/edsac-linux-x86_64", program)


def put_built(folder, program):
    """Puts a program into a repository as the one that was built there of its sources."""
    put(folder / "crates/edsac/out/edsac", program)


def put(path, program):
    path.parent.mkdir(parents=True, exist_ok=True)
    path.unlink(missing_ok=True)
    if isinstance(program, bytes):
        path.write_bytes(program)
    else:
        shutil.copyfile(program, path)
    path.chmod(0o755)
    note(path)


def note(path):
    """Writes MADE beside a program of the sources that are there."""
    top = next(parent for parent in path.parents if (parent / "crates.txt").exists())
    checksum = subprocess.run([top / ".ci/sources"], capture_output=True, text=True, check=True).stdout.strip()
    digest = subprocess.run(["sha256sum"], stdin=open(path, "rb"), capture_output=True, text=True).stdout.split()[0]
    path.with_name("MADE").write_text(f"kit {KIT}\nsources of edsac {checksum}\n{digest}  {path.name}\n")


def bare_path(folder):
    """A folder with the tools that the script uses, and nothing else, to be the path."""
    folder.mkdir()
    for tool in TOOLS:
        (folder / tool).symlink_to(shutil.which(tool))
    return str(folder)


def at_pipes(words, folder, text=b"", **how):
    """The status, standard output and standard error of a command in a folder, at pipes."""
    done = subprocess.run(words, cwd=folder, input=text, capture_output=True, timeout=tree.SECONDS, **how)
    return done.returncode, done.stdout, done.stderr


def at_terminal(words, folder, text=b"", out_too=False, **how):
    """The same with standard error at a terminal, whose line ends are given as line feeds; or with both outputs there, and
    then what the terminal shows stands in place of standard error."""
    screen, its = pty.openpty()
    out = its if out_too else subprocess.PIPE
    job = subprocess.Popen(words, cwd=folder, stdin=subprocess.PIPE, stdout=out, stderr=its, **how)
    os.close(its)
    paper = b""
    if out_too:
        job.stdin.write(text)
        job.stdin.close()
        shown = read_all(screen)
        job.wait(tree.SECONDS)
    else:
        paper, _ = job.communicate(text, timeout=tree.SECONDS)
        shown = read_all(screen)
    os.close(screen)
    return job.returncode, paper, shown.replace(b"\r\n", b"\n")


def read_all(screen):
    """What a terminal got, until no process has it open."""
    shown = b""
    try:
        while piece := os.read(screen, 65536):
            shown += piece
    except OSError:
        pass
    return shown


def script(folder):
    return str(Path(folder) / "edsac")


def as_nobody():
    """How to run a command as a user whom permissions hold, if this one is not."""
    return {"user": 65534, "group": 65534, "extra_groups": []} if os.geteuid() == 0 else {}
