"""Proves libraries in a copy of the repository, several side by side, and keeps each as soon as it is proved.

Each library is proved by the prover itself, over the statements of those below it. The library with the longest chain of
others above it comes first. A chain is late if it is longer than a processor's share of the work that is left; the others
make way for it. A proof takes a quarter more work on two processors than on one, so it gets only those that no other proof
can use; near the end, where soon some would be idle, it gets two at least, if memory allows. What is kept counts for
the same kit, lines in crates.txt and files, of the library and of all below it.
"""
import hashlib
import os
import re
import shutil
import time
from pathlib import Path

import made
import tree

# The libraries that are proved, beside each the checksums that it counts for; and the log of each proof.
PROVED = tree.BUILT.parent / "proved"
LOGS = tree.BUILT.parent / "logs"
# The most processors that one proof gains from, and the memory that it takes for each.
MOST_PROCESSORS = 4
PROCESSOR_MEMORY = 1_500_000_000
# The niceness of a proof that no long chain waits for.
NICENESS = 5
# What a proof takes for each function and for each library below, in the time of a line.
LINES_OF_A_FUNCTION = 200
LINES_OF_A_LIBRARY_BELOW = 180
# The end is near if at most this many libraries are left for each processor.
LEFT_NEAR_THE_END = 2
# How much of the work is proved before the time left is estimated.
SHARE_BEFORE_ESTIMATE = 0.05
# The words of a verdict that rests on the kit, and on the libraries below, alone.
VERDICT = {"logic", "functions", "sum", "native", "logic-built", "libraries-built", "statements"}


def in_memory():
    """On how many processors proofs can be at work, by the memory that there is."""
    available = next(line for line in Path("/proc/meminfo").read_text().splitlines() if line.startswith("MemAvailable"))
    return int(available.split()[1]) * 1024 // PROCESSOR_MEMORY


def processors():
    """How many processors there are, and memory for a proof on each."""
    return max(min(len(os.sched_getaffinity(0)), in_memory()), 1)


def work(name, below):
    """The work of a library's proof over those below, by which the order is chosen and the time left is estimated."""
    functions = sum(len(re.findall(r"\bfn \w", path.read_text())) for path in tree.sources(name))
    return tree.size(name) + LINES_OF_A_FUNCTION * functions + LINES_OF_A_LIBRARY_BELOW * len(below)


def log(name):
    """The log of a library's proof."""
    return LOGS / f"{name}.log"


def digest(name, copy):
    """The checksum of a library's line in crates.txt, and of its files, in a copy."""
    found = hashlib.sha256(tree.line(name, copy).encode())
    folder = copy / "crates" / name
    for path in sorted(path for path in folder.rglob("*") if path.is_file()):
        data = path.read_bytes()
        found.update(f"{path.relative_to(folder)} {len(data)}\n".encode() + data)
    return found.hexdigest()


class Proofs:
    """The proofs of libraries in a copy, which go on with each call of `go_on`."""

    def __init__(self, libraries, copy):
        crates = tree.stands_on()
        self.copy = copy
        self.below = {name: sorted(tree.below(name, crates)) for name in libraries}
        self.work = {name: work(name, self.below[name]) for name in libraries}
        self.chain = {}
        for name in reversed(libraries):
            above = (self.chain[other] for other in self.chain if name in self.below[other])
            self.chain[name] = self.work[name] + max(above, default=0)
        kit, digests = made.kit(), {name: digest(name, copy) for name in libraries}
        self.keys = {name: " ".join([kit, *(digests[other] for other in [*self.below[name], name])]) for name in libraries}
        self.proved, self.at_work, self.refused = set(), {}, None
        self.processors = processors()
        # What a proof gets at least near the end: two processors, if there is memory for two proofs on each.
        self.least_near_the_end = 2 if 1 < self.processors and 2 * self.processors <= in_memory() else 1
        self.began = time.monotonic()
        shutil.rmtree(LOGS, ignore_errors=True)
        LOGS.mkdir(parents=True)
        PROVED.mkdir(exist_ok=True)
        for name in libraries:
            if self.is_kept(name):
                self.proved.add(name)
        self.kept = set(self.proved)

    def is_kept(self, name):
        """Whether a library was proved before, from these files, and all below it are taken from before too."""
        key = PROVED / f"{name}.key"
        return self.proved.issuperset(self.below[name]) and key.is_file() and key.read_text() == self.keys[name]

    def left(self):
        """The work that is left, with half of each proof that has begun."""
        begun = sum(self.work[name] for name in self.at_work)
        return sum(self.work[name] for name in self.work if name not in self.proved) - begun / 2

    def start(self):
        """Starts what can be started."""
        waiting = [name for name in self.work if name not in self.proved and name not in self.at_work]
        ready = [name for name in waiting if self.proved.issuperset(self.below[name])]
        ready.sort(key=self.chain.get, reverse=True)
        is_near_the_end = len(waiting) + len(self.at_work) <= LEFT_NEAR_THE_END * self.processors
        least = self.least_near_the_end if is_near_the_end else 1
        for at, name in enumerate(ready[: self.processors - len(self.at_work)]):
            idle = self.processors - sum(jobs for _, jobs in self.at_work.values())
            jobs = min(max(idle // (len(ready) - at), least), MOST_PROCESSORS)
            is_late = self.chain[name] > self.left() / self.processors
            self.at_work[name] = self.proof(name, jobs, 0 if is_late else NICENESS), jobs

    def proof(self, name, jobs, niceness):
        """The proof of a library, begun on some processors. A nice one makes way for the others."""
        (PROVED / f"{name}.key").unlink(missing_ok=True)
        words = [*tree.prover("build", name, PROVED), "--statements", "--jobs", str(jobs), "-o", str(PROVED / f"{name}.rlib")]
        return tree.Run(["nice", "-n", str(niceness), *words], self.copy / "crates" / name, log(name))

    def end_of(self, name):
        """Takes what a proof that has ended gives."""
        run, _ = self.at_work.pop(name)
        verdict = next((line for line in run.lines() if line.startswith("logic=proved ")), "")
        words = {word.partition("=")[0] for word in verdict.split()}
        if run.process.returncode or not words or not words <= VERDICT:
            self.refused = name
        else:
            self.proved.add(name)
            (PROVED / f"{name}.key").write_text(self.keys[name])

    def go_on(self):
        """Starts and ends proofs, and gives whether there is more to do."""
        for name in [name for name, (run, _) in self.at_work.items() if run.process.poll() is not None]:
            self.end_of(name)
        if self.refused or len(self.proved) == len(self.work):
            return False
        self.start()
        return True

    def end(self):
        """Ends what is at work."""
        for run, _ in self.at_work.values():
            run.end()

    def line(self):
        """How many libraries are proved, which are at work, and how much time is left at the rate of this run."""
        parts = [f"{len(self.proved)} of {len(self.work)} crates are proved"]
        if self.at_work:
            parts.append(f"at work: {', '.join(sorted(self.at_work))}")
        to_do, left = sum(self.work[name] for name in self.work if name not in self.kept), self.left()
        if to_do - left > to_do * SHARE_BEFORE_ESTIMATE and left:
            minutes = (time.monotonic() - self.began) * left / (to_do - left) / 60
            parts.append("less than a minute is left" if minutes < 1 else f"about {round(minutes)} min are left at this rate")
        return "; ".join(parts)
