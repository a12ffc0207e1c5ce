"""What the tests of this folder share: they run the program on guests, and tell line by line what came to something else."""

import argparse
import difflib
import os
import shlex
import signal
import subprocess
import sys
import tempfile

ROOT = os.path.dirname(os.path.dirname(os.path.dirname(os.path.realpath(__file__))))
sys.path[:0] = [f"{ROOT}/tools", f"{ROOT}/examples", f"{ROOT}/tests/lib"]
# A shell ignores Ctrl-C for what it runs in the background, and all that is started here would inherit that.
signal.signal(signal.SIGINT, signal.default_int_handler)

import make
from lib.assembly import assembled

SECONDS_A_RUN = 60
LONGEST_TELLING = 24


class Tests:
    """Runs a program, and counts what was compared.

    A guest is an image's bytes, a list of words, or assembly text.
    """

    def __init__(self, name, program, room):
        self.name, self.program, self.room = name, program, room
        self.count, self.failed = 0, False

    def file(self, name, content):
        """Writes a file, and returns its path."""
        path = f"{self.room}/{name}"
        with open(path, "wb") as file:
            file.write(content if isinstance(content, bytes) else content.encode("latin-1"))
        return path

    def call(self, *words, seconds=SECONDS_A_RUN):
        """Returns the words of a call of the program, its status, standard output and standard error."""
        command = [self.program, *words]
        try:
            ran = subprocess.run(command, cwd=self.room, capture_output=True, timeout=seconds, check=False)
        except subprocess.TimeoutExpired:
            return command, f"not over after {seconds} s", "", ""
        return command, ran.returncode, ran.stdout.decode("latin-1"), ran.stderr.decode("latin-1")

    def expect(self, what, wanted, *words, status=0, said="", seconds=SECONDS_A_RUN):
        """Compares what a call writes, its status, and what it says on standard error."""
        self.count += 1
        command, found, wrote, error = self.call(*words, seconds=seconds)
        if (found, wrote, error) == (status, wanted, said):
            return
        self.fail(f"{what}: {shlex.join(command)}")
        if found != status:
            self.tell(f"status {found}, and not {status}")
        self.differ("standard output", wanted, wrote)
        self.differ("standard error", said, error)

    def run(self, what, guest, wanted, *options, **more):
        """Compares the report of a guest's run."""
        self.expect(what, wanted, "run", self.file("guest.elf", image(guest)), *options, **more)

    def drive(self, what, guest, rows, *options, **more):
        """Compares the answers of a script with those that its lines want. A row is a line and its answer."""
        script = self.file("script", "".join(f"{line}\n" for line, _ in rows))
        wanted = "".join(f"{answer}\n" for _, answer in rows)
        self.expect(what, wanted, "drive", self.file("guest.elf", image(guest)), script, *options, **more)

    def same(self, what, wanted, found):
        """Compares two values."""
        self.count += 1
        if found != wanted:
            self.fail(what)
            self.differ("value", str(wanted), str(found))

    def fail(self, what):
        print(f"{self.name}: {what}", file=sys.stderr)
        self.failed = True

    def skip(self, what):
        """Says what is left out here, and why."""
        print(f"{self.name}: skipped {what}")

    def tell(self, text):
        print(f"    {text}", file=sys.stderr)

    def differ(self, what, wanted, found):
        """Tells the lines that differ: what was wanted behind a `-`, and what came behind a `+`."""
        if wanted == found:
            return
        self.tell(f"{what}, - wanted, + found:")
        lines = [line for line in difflib.ndiff(wanted.splitlines(), found.splitlines()) if line[0] in "-+"]
        for line in lines[:LONGEST_TELLING] or [repr(found[-80:])]:
            self.tell(line)
        if len(lines) > LONGEST_TELLING:
            self.tell(f".. and {len(lines) - LONGEST_TELLING} more lines")


def image(guest):
    """Returns the image of a guest."""
    if isinstance(guest, bytes):
        return guest
    return make.image(assembled(guest) if isinstance(guest, str) else guest)


def changed(seven, *places):
    """Returns an image of one header with this twice more behind it, and with bytes put to places, each behind its place."""
    data = bytearray(seven + seven[52:84] * 2)
    for at, byte in zip(places[::2], places[1::2]):
        data[at] = byte
    return bytes(data)


def text_of(path):
    """Returns the text of a file of the repository."""
    with open(f"{ROOT}/{path}", encoding="utf-8") as file:
        return file.read()


def main(doc, test, options=(), runs=True):
    """Runs a test by the words of the command line, and returns the status. `test(tests, values)` returns what the closing line
    tells, or False where there is to be none. An option is its name and its default, which is False for one without a value,
    and the type of its value. Where `runs` is False the test runs no program, and none is named."""
    name = os.path.basename(sys.argv[0])
    parser = argparse.ArgumentParser(prog=name, description=doc, formatter_class=argparse.RawDescriptionHelpFormatter)
    for option, default in options:
        how = {"action": "store_true"} if default is False else {"type": type(default), "default": default}
        parser.add_argument(option, **how)
    if runs:
        parser.add_argument("program", nargs="?", default=f"{ROOT}/snow", metavar="PROGRAM")
    values = parser.parse_args()
    with tempfile.TemporaryDirectory() as room:
        tests = Tests(name, os.path.realpath(values.program) if runs else None, room)
        told = test(tests, values)
    if not tests.failed and told is not False:
        print(f"{name}: all well, {told or f'{tests.count} runs and scripts'}")
    return int(tests.failed)
