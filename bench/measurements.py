"""What the measurements of this folder share: the words of a call, the images of guests, and a plain interpreter."""

import glob
import os
import shutil
import subprocess
import sys
import tempfile

ROOT = os.path.dirname(os.path.dirname(os.path.realpath(__file__)))
sys.path[:0] = [f"{ROOT}/examples", f"{ROOT}/tools"]

import make

NAME = os.path.basename(sys.argv[0])


def named(words):
    """Returns the programs that words of the command line name, or else the one that ./snow built."""
    if any(word.startswith("-") for word in words):
        sys.exit(f"{NAME}: bench/{NAME} --help tells the use")
    programs = [os.path.abspath(word) for word in words] or glob.glob(f"{ROOT}/.snow/*/snow")[:1]
    if not programs:
        sys.exit(f"{NAME}: no program is built: call ./snow first")
    return programs


def main(doc, measure):
    """Runs a measurement by the words of the command line, and returns the status. `measure(words, folder)` returns whether
    a bar is not met."""
    if sys.argv[1:] == ["--help"]:
        print(doc)
        return 0
    with tempfile.TemporaryDirectory() as folder:
        return int(bool(measure(sys.argv[1:], folder)))


def image(folder, words):
    """Returns the path of the image of a guest, which is written to the folder under a name that no other has there."""
    path = f"{folder}/{len(os.listdir(folder))}.elf"
    make.write(path, words)
    return path


def compiled(folder, name, *options):
    """Returns the path of a program in C of this folder, which is built where there is a C compiler, or None."""
    compiler = shutil.which("cc") or shutil.which("gcc")
    if compiler is None:
        return None
    subprocess.run([compiler, "-O2", *options, "-o", f"{folder}/{name}", f"{ROOT}/bench/{name}.c"], check=True)
    return f"{folder}/{name}"


def interpreter(folder):
    """Returns the path of the plain interpreter, or None."""
    return compiled(folder, "interpreter")
