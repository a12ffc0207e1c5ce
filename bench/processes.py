"""What processes cost: their time, and the memory that they hold."""

import fcntl
import os
import subprocess
import sys
import time

# As ./snow has it.
TUNABLES = ("hugetlb=1", "mmap_threshold=33554432", "trim_threshold=268435456")
os.environ.setdefault("GLIBC_TUNABLES", ":".join(f"glibc.malloc.{one}" for one in TUNABLES))


def seconds(command):
    """Returns the processor time of a run, whose report nobody reads."""
    running = subprocess.Popen(command, stdout=subprocess.DEVNULL)
    _, status, used = os.wait4(running.pid, 0)
    if status != 0:
        sys.exit(f"{' '.join(command)}: status {status}")
    return used.ru_utime + used.ru_stime


def quickest(commands, tries):
    """Returns the processor time of the quickest of some runs of each command. All take turns."""
    return [min(times) for times in zip(*[[seconds(command) for command in commands] for _ in range(tries)])]


def told(pid, name):
    """Returns what the system tells of a process under a name."""
    with open(f"/proc/{pid}/status", encoding="ascii") as status:
        return next(line.split()[1] for line in status if line.startswith(f"{name}:"))


def resident(command):
    """Returns the bytes that a program has resident as it is to put out its first byte, for which the pipe has no room. What is
    resident of its file is not among them, since it differs from run to run."""
    reading, writing = os.pipe()
    fcntl.fcntl(writing, fcntl.F_SETPIPE_SZ, 4096)
    os.write(writing, bytes(4096))
    with subprocess.Popen(command, stdout=writing) as running:
        os.close(writing)
        waits = 0
        while waits < 3:
            time.sleep(0.002)
            waits = waits + 1 if told(running.pid, "State") == "S" else 0
        size = int(told(running.pid, "RssAnon")) * 1024
        while os.read(reading, 1 << 16):
            pass
    os.close(reading)
    return size
