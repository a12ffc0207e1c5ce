"""A folder from which commands see the repository, and the commands of a document with what it says that they write."""

import os
import re
import resource
import shutil
import subprocess

import harness
from harness import ROOT

TOOLS = "riscv64-unknown-elf"

# The versions of gcc and of ld that the stored images and the outputs in the documents are of. Others may choose other
# instructions, and then the steps are others.
VERSIONS = "12.2.0", "2.40"

# What the trace says where it takes long, as on a machine that has much else to do.
PROGRESS = re.compile(r"(?m)^trace: (follows|looks at|looks back at) .*\n")


def first_line(*command):
    """Returns the first line that a command writes, or an empty text where there is no such command."""
    if not shutil.which(command[0]):
        return ""
    return subprocess.run(command, capture_output=True, check=False, text=True).stdout.partition("\n")[0]


def children_seconds():
    """Returns how many seconds of a processor the commands took that were run."""
    used = resource.getrusage(resource.RUSAGE_CHILDREN)
    return used.ru_utime + used.ru_stime


class Kit:
    """A folder from which commands see the repository with the program as ./snow, and its own /tmp."""

    def __init__(self, tests):
        self.tests, self.room, self.program = tests, tests.room, f"{tests.room}/snow"
        self.gcc = first_line(f"{TOOLS}-gcc", "-dumpfullversion")
        self.picolibc = self.gcc and first_line(f"{TOOLS}-gcc", "-print-file-name=picolibc.specs") != "picolibc.specs"
        self.is_known = self.gcc == VERSIONS[0] and VERSIONS[1] in first_line(f"{TOOLS}-ld", "--version")
        os.mkdir(f"{self.room}/tmp")
        os.symlink(tests.program, self.program)
        for name in ("docs", "examples", "guest", "tests", "tools", "README.md"):
            os.symlink(f"{ROOT}/{name}", f"{self.room}/{name}")

    def fault(self, text):
        """Says what is wrong."""
        self.tests.fail(text)

    def run(self, command):
        """Returns the status of a command and what it writes, its two streams as one."""
        ran = subprocess.run(
            ["bash", "-c", f"set -o pipefail; {command.replace('/tmp/', self.room + '/tmp/')}"],
            cwd=self.room,
            env={**os.environ, "work": f"{self.room}/tmp"},
            stdout=subprocess.PIPE,
            stderr=subprocess.STDOUT,
            check=False,
        )
        wrote = ran.stdout.decode("utf-8", "replace").replace(self.room + "/tmp/", "/tmp/")
        return ran.returncode, PROGRESS.sub("", wrote)

    def expect(self, command, wanted, status=0):
        """Runs a command, which is to write something: a text, or what matches a pattern."""
        found, wrote = self.run(command)
        matches = wanted.search(wrote) if isinstance(wanted, re.Pattern) else wrote.rstrip("\n") == wanted.rstrip("\n")
        if found != status or not matches:
            self.fault(f"{command}: status {found}, and wrote\n{wrote}")

    def guest(self, name, guest):
        """Makes the image of a guest in /tmp."""
        self.tests.file(f"tmp/{name}", harness.image(guest))


def commands_of(text):
    """Yields the commands of a document and what it says that each writes."""
    command, wrote, in_text = None, [], False
    for line in text.splitlines() + ["end"]:
        if in_text:
            command += f"\n{line[4:]}"
            in_text = line != "    END"
        elif line.startswith("    $ ") or line and not line.startswith("    "):
            if command:
                yield command, "\n".join(wrote).rstrip("\n")
            command, wrote = line[6:] if line.startswith("    $ ") else None, []
            in_text = command is not None and command.endswith("<<'END'")
        elif command:
            wrote.append(line[4:])
