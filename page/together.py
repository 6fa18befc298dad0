"""Runs commands side by side, and shows what each one said when it is over.

    python3 page/together.py COUNT < COMMANDS

A line of COMMANDS is a command: its name, the seconds that it may take, and its words, with tabs between them. COUNT of
them run at once, begun in their order. A command that takes longer is ended, with all that it started. The status is 1
if a command doesn't end with 0, and if there is none.
"""
import os
import signal
import subprocess
import sys
import tempfile
import threading
import time
from concurrent.futures import ThreadPoolExecutor
from pathlib import Path

# Fields of /proc/PROCESS/stat, from the one after the name on; times are in ticks.
SESSION, USER, SYSTEM = 3, 11, 12
TICKS = os.sysconf("SC_CLK_TCK")
GRACE = 10  # seconds from the wish that a command ends to its end
speaking = threading.Lock()


class Command:
    """A command, in a session of its own, with a folder of its own for what it leaves behind."""

    def __init__(self, line):
        self.name, limit, *self.words = line.rstrip("\n").split("\t")
        self.limit = float(limit)
        self.is_late = False
        self.is_over = threading.Event()
        self.process = None
        self.used = {}  # seconds of the processors, by process

    def run(self):
        """Runs it to its end and shows what it said; whether it ended with 0, and the seconds of the processors."""
        began = time.monotonic()
        folder = tempfile.TemporaryDirectory(prefix="page-", ignore_cleanup_errors=True)
        with folder, tempfile.TemporaryFile() as said:
            self.process = subprocess.Popen(
                self.words,
                stdin=subprocess.DEVNULL,
                stdout=said,
                stderr=subprocess.STDOUT,
                start_new_session=True,
                env={**os.environ, "TMPDIR": folder.name},
            )
            timer = threading.Timer(self.limit, self.end_late)
            timer.start()
            seen = threading.Thread(target=self.look)
            seen.start()
            _, status, used = os.wait4(self.process.pid, 0)
            timer.cancel()
            self.is_over.set()
            self.process.returncode = os.waitstatus_to_exitcode(status)
            self.end(signal.SIGKILL)  # what it started and left behind
            seen.join()
            said.seek(0)
            text = said.read().decode(errors="replace")
        # the first sum lacks the processes of a browser, the second one those that ended between two looks
        processor = max(used.ru_utime + used.ru_stime, sum(self.used.values()))
        self.show(text, time.monotonic() - began, processor)
        return self.process.returncode == 0, processor

    def look(self):
        """Notes every second how many seconds of the processors each process of its session has taken."""
        while not self.is_over.wait(1):
            for path in Path("/proc").glob("[0-9]*/stat"):
                try:
                    fields = path.read_text().rpartition(") ")[2].split()
                except OSError:
                    continue  # it has ended
                if int(fields[SESSION]) == self.process.pid:
                    self.used[path.parent.name] = (int(fields[USER]) + int(fields[SYSTEM])) / TICKS

    def show(self, text, seconds, processor):
        with speaking:
            print(f"-- {self.name}: {seconds:.0f} s, {processor:.0f} s of processors")
            print(text, end="" if text.endswith("\n") or not text else "\n")
            if self.is_late:
                print(f"WRONG: {self.name} took more than {self.limit:.0f} s, and was ended")
            elif self.process.returncode:
                print(f"WRONG: {self.name} ended with {self.process.returncode}")
            sys.stdout.flush()

    def end_late(self):
        self.is_late = True
        self.end(signal.SIGTERM)
        if not self.is_over.wait(GRACE):
            self.end(signal.SIGKILL)

    def end(self, number):
        try:
            os.killpg(self.process.pid, number)
        except ProcessLookupError:
            pass  # it has ended


def main(count):
    commands = [Command(line) for line in sys.stdin if line.strip()]
    began = time.monotonic()

    def leave(number, _):
        for command in commands:
            if command.process and command.process.returncode is None:
                command.end(signal.SIGTERM)
        os._exit(128 + number)

    for number in (signal.SIGTERM, signal.SIGHUP, signal.SIGINT):
        signal.signal(number, leave)
    with ThreadPoolExecutor(count) as workers:
        ended = list(workers.map(Command.run, commands))
    passed = sum(is_right for is_right, _ in ended)
    seconds, processor = time.monotonic() - began, sum(seconds for _, seconds in ended)
    print(f"{passed} of {len(commands)} commands passed, in {seconds:.0f} s, {processor:.0f} s of processors")
    return 0 if commands and passed == len(commands) else 1


if __name__ == "__main__":
    sys.exit(main(int(sys.argv[1])))
