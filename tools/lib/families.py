"""Drives the machines of a family by scripts of `snow drive`, up to where one of them is looked at."""

import re
from collections.abc import Iterator

from lib import program, reports, scripts
from lib.command import Problem
from lib.ports import BLOCK, BLOCK_COMMAND, BUFFER, READ, SECTOR, SECTOR_SIZE, WRITE

MOST = scripts.MOST_STEPS
STEPS_IN_A_SCRIPT = 30000
WHAT = "there is no trace"


class Family:
    """A guest's machines, which are driven from their start by a new script for each question."""

    def __init__(self, image: str, options: list[str]):
        self.image, self.options = image, options
        self.joined_by: dict[str, list[str]] = {}
        self.counts: dict[str, int] | None = None
        # the pages that a machine was found to wait for, and whether one was found to wait for a sibling
        self.pages: list[str] = []
        self.talks = False
        # where machines stand behind the last round, in the words of `snow drive`
        self.stands: dict[str, str] = {}

    def room(self, script: list[str], line: int) -> int:
        """Returns how many more lines of a length a script can have, and 1 at least."""
        return max(1, (scripts.LONGEST - sum(len(line) + 1 for line in script)) // line)

    def ask(self, script: list[str], lines: list[str]) -> list[str]:
        """Returns the answers to the lines behind a script."""
        return program.answers(self.image, script + lines, self.options, WHAT)[len(script) :]

    def read_report(self) -> dict[str, int]:
        """Reads the report of `snow run`, of which it keeps the tickets that each machine joins, and how many children tickets
        have, which it returns. Machines that are killed are not told of, and neither is what comes of them."""
        if self.counts is not None:
            return self.counts
        self.counts = {}
        with program.report(self.image, self.options, WHAT) as stream:
            left = [reports.tree(stream)[0]]
        while left:
            machine = left.pop()
            for item in machine.log:
                if isinstance(item, reports.Killed):
                    self.counts[item.name] = item.count
                    continue
                left.append(item)
                ticket = item.name.rsplit(".", 1)[0]
                self.counts[ticket] = self.counts.get(ticket, 0) + 1
                # behind the log of a machine that is stuck come children that it has not joined
                if machine.ending != "stuck" and ticket not in self.joined_by.setdefault(machine.name, []):
                    self.joined_by[machine.name].append(ticket)
        return self.counts

    def tickets_joined(self, name: str) -> list[tuple[str, int]]:
        """Returns the tickets that a machine joins, in their order, each with how many children it has. A machine that is
        killed in the end, or an ancestor of which is, joins none here."""
        counts = self.read_report()
        return [(ticket.rsplit(".", 1)[1], counts[ticket]) for ticket in self.joined_by.get(name, [])]

    def lives(self, name: str, tickets: list[tuple[str, int]], counts: dict[str, int]) -> list[str]:
        """Returns lines that bring the children of these tickets of a machine to their ends, each ticket behind a line that
        brings the machine to its join, and then the machine to its end. Each child is given all pages of which it is known
        that one waits for them. The counts tell how many pages each ticket was sent, and go on."""
        lines, left = [], [("step", name)]
        for ticket, children in reversed(tickets):
            left += [("child", f"{name}.{ticket}.{child}") for child in range(children, 0, -1)] + [("step", name)]
        while left:
            kind, machine = left.pop()
            if kind == "child":
                siblings = machine.rsplit(".", 1)[0]
                if machine.endswith(".1"):
                    lines += [f"push {machine} {page}" for page in self.pages]
                    counts[siblings] = counts.get(siblings, 0) + len(self.pages)
                first = counts.get(siblings, 0) - len(self.pages)
                lines += [f"give {machine} {first + place}" for place in range(len(self.pages))]
                left.append(("step", machine))
                for ticket, children in reversed(self.tickets_joined(machine)):
                    left += [("child", f"{machine}.{ticket}.{child}") for child in range(children, 0, -1)] + [("step", machine)]
            else:
                lines.append(f"step {machine} {MOST}")
        return lines

    def rest_of(self, script: list[str], name: str, tickets: list[tuple[str, int]]) -> tuple[list[str], list[str]]:
        """Returns lines that bring a machine from the join of the first of these tickets to its end, and their answers. Each
        run of the program finds out pages that machines wait for, until none is missing."""
        counts = {}
        for line in script:
            if line.startswith("push "):
                siblings = line.split()[1].rsplit(".", 1)[0]
                counts[siblings] = counts.get(siblings, 0) + 1
        while True:
            own, siblings = [], name.rsplit(".", 1)[0]
            if name != "0":
                own = [f"push {name} {page}" for page in self.pages]
                own += [f"give {name} {counts.get(siblings, 0) + place}" for place in range(len(self.pages))]
            # the machine waits already, so the first line, which would bring it to its join, is left out
            lines = own + self.lives(name, tickets, dict(counts))[1:]
            answers = self.ask(script, lines)
            missing = {answer.rsplit(" ", 1)[1] for answer in answers if " stall " in answer} - set(self.pages)
            self.talks = any(re.search(r" (send|receive) \d+$", answer) for answer in answers)
            if self.talks or not missing:
                return lines, answers
            self.pages += sorted(missing, key=int)

    def sent(self, script: list[str], siblings: str) -> int:
        """Returns how many pages a script sends to the children of a ticket, which are named but for their numbers."""
        return sum(line.startswith("push ") and line.split()[1].rsplit(".", 1)[0] == siblings for line in script)

    def bring(self, script: list[str], name: str, page: str) -> list[str]:
        """Returns lines that bring a machine the page that it waits for, behind a script."""
        return [f"push {name} {page}", f"give {name} {self.sent(script, name.rsplit('.', 1)[0])}"]

    def children(self, script: list[str], siblings: str) -> list[str]:
        """Returns the names of the children of a ticket, those that have ended maybe among them. Where the report does not tell how
        many there are, these are those that live behind a script, of as many as the clones are enough for."""
        counts = self.read_report()
        if siblings in counts:
            return [f"{siblings}.{child}" for child in range(1, counts[siblings] + 1)]
        clones = next((int(option.split("=")[1]) for option in self.options if option.startswith("--clones=")), 0)
        names, found = [f"{siblings}.{child}" for child in range(1, clones + 1)], []
        while names:
            count = self.room(script, len(names[-1]) + 8)
            answers = self.ask(script, [f"step {name} 0" for name in names[:count]])
            found += [name for name, answer in zip(names, answers) if not answer.endswith(" none")]
            names = names[count:]
        return found

    def go_on(self, script: list[str], names: list[str], own: str) -> list[tuple[str, str]]:
        """Returns lines that bring machines, and all that come of them, as far as they go without others, or one of them to its
        end, behind a script; and their answers. A round is a line for each machine, and a run of the program makes ever more
        rounds. Lines that do nothing are left out. Where the machines stand then is kept."""
        sent, machines, tickets, rounds = Sent(script, self.pages), list(names), set(), 1
        told = [line for name in names for line in sent.all_to(name)]
        while True:
            before = script + [line for line, _ in told]
            round_of = [f"step {name} {MOST}" for name in machines]
            lines = (rounds * round_of)[: max(len(machines), self.room(before, max(map(len, round_of)) + 1))]
            moves = len(told)
            self.stands = {}
            for line, answer in zip(lines, self.ask(before, lines)):
                self.stands[line.split()[1]] = answer
                if not re.search(r" (none|ran 0 .*)$", answer):
                    told.append((line, answer))
            if any(line == f"step {own} {MOST}" and re.search(r" (exit \d+|limit)$", answer) for line, answer in told[moves:]):
                return told
            for name, answer in self.stands.items():
                if re.search(r" (none|exit \d+|limit)$", answer):
                    machines.remove(name)
                elif stops := re.search(r" stall (\d+)$", answer):
                    told += sent.to(name, stops[1])
                elif (stops := re.search(r" wait (\d+)$", answer)) and (ticket := f"{name}.{stops[1]}") not in tickets:
                    tickets.add(ticket)
                    children = self.children(script + [line for line, _ in told], ticket)
                    machines += children
                    told += [line for child in children for line in sent.all_to(child)]
                    moves = -1
            if len(told) == moves or not machines:
                return told
            rounds = min(2 * rounds, 1024)

    def waits(self) -> dict[str, str]:
        """Returns for what each machine waits that lives where the family goes no further, in the words of `snow drive` and in the
        order of their names; nothing where the first machine ends."""
        self.go_on([], ["0"], "0")
        waits = {name: found[1] for name, answer in self.stands.items() if (found := re.search(r" ((?:wait|send|receive) \d+)$", answer))}
        if "0" not in waits:
            return {}
        return dict(sorted(waits.items(), key=lambda wait: [int(part) for part in wait[0].split(".")]))


class Sent:
    """The pages that were sent to the children of each ticket, and those that were given to each machine, by a script and since.
    What is to be known of a page to send it is a list of those that some machine was found to wait for."""

    def __init__(self, script: list[str], known: list[str]):
        self.known, self.pages, self.given = known, {}, set()
        for line in script:
            word, name, *rest = line.split()
            pages = self.pages.setdefault(name.rsplit(".", 1)[0], [])
            if word == "push":
                pages.append(rest[0])
            elif word == "give":
                self.given.add((name, pages[int(rest[0])]))

    def to(self, name: str, page: str) -> list[tuple[str, str]]:
        """Returns lines by which a page comes to a machine."""
        pages, lines = self.pages.setdefault(name.rsplit(".", 1)[0], []), []
        if page not in self.known:
            self.known.append(page)
        if page not in pages:
            pages.append(page)
            lines.append((f"push {name} {page}", ""))
        self.given.add((name, page))
        return [*lines, (f"give {name} {pages.index(page)}", "")]

    def all_to(self, name: str) -> list[tuple[str, str]]:
        """Returns lines by which all pages that are known come to a machine."""
        new = [page for page in self.known if (name, page) not in self.given] if name != "0" else []
        return [line for page in new for line in self.to(name, page)]


class Machine:
    """A machine of a family: its name, a script behind which it is there and has made no step, and how many steps it counts
    there. Its legs are the lines that come before some steps of it, and how many steps those are."""

    def __init__(self, family: Family, name: str, script: list[str], count: int):
        self.family, self.name, self.script, self.born = family, name, script, count
        self.legs: list[tuple[list[str], int]] = [([], 0)]
        # what it waits for, in the words of `snow drive`; how it ended; and what it waits for where it goes no further
        self.waits_for: str | None = None
        self.ending: str | None = None
        self.rests: str | None = None
        # how many steps it counts where it waits for a ticket that it joins, of those that a report told
        self.joins: dict[str, int] = {}

    def reached(self) -> int:
        return self.born + sum(count for _, count in self.legs)

    def script_to(self, count: int) -> list[str]:
        """Returns a script behind which it counts so many steps, of those that it has made."""
        script, left = list(self.script), count - self.born
        for before, steps in self.legs:
            made = min(left, steps)
            script += before + ([f"step {self.name} {made}"] if made else [])
            left -= made
            if made < steps:
                break
        return script

    def step(self, count: int) -> None:
        """Makes at most so many steps, and stops where it waits or has ended, or at a page, which is brought then."""
        answer = self.family.ask(self.script_to(self.reached()), [f"step {self.name} {min(count, MOST)}"])[0]
        made, why = re.fullmatch(r"\S+ ran (\d+) (.+)", answer).groups()
        before, steps = self.legs[-1]
        self.legs[-1] = before, steps + int(made)
        self.waits_for = why if re.match("(wait|send|receive) ", why) else None
        if why.startswith("exit ") or why == "limit":
            self.ending = why
        elif why.startswith("stall "):
            self.legs.append((self.family.bring(self.script_to(self.reached()), self.name, why.split()[1]), 0))
        elif why != "ok" and not self.waits_for:
            raise Problem(f"machine {self.name}: {why}")

    def pass_wait(self) -> None:
        """Where it waits, runs the machines that it waits for. Where a report tells which children it joins, it runs these and
        itself to their ends."""
        if not self.waits_for:
            return
        script, reached = self.script_to(self.reached()), self.reached()
        kind, number = self.waits_for.split()
        tickets = self.family.tickets_joined(self.name) if kind == "wait" and not self.family.talks else []
        while tickets and tickets[0][0] != number:
            tickets.pop(0)
        if not tickets or not self.pass_all(script, tickets):
            self.pass_together(script, [self.name] if kind == "wait" else self.family.children(script, self.name.rsplit(".", 1)[0]))
        self.rests = self.waits_for if self.reached() == reached and not self.ending else None
        self.waits_for = None

    def pass_together(self, script: list[str], names: list[str]) -> None:
        """Runs machines, itself among them, and all that come of them as far as they go without others."""
        before = []
        for line, answer in self.family.go_on(script, names, self.name):
            if line != f"step {self.name} {MOST}":
                before.append(line)
                continue
            made, why = re.fullmatch(r"\S+ ran (\d+) (.+)", answer).groups()
            self.legs.append((before, int(made)))
            self.ending = why if why == "limit" or why.startswith("exit ") else None
            before = []
        self.legs.append((before, 0))

    def is_over(self) -> bool:
        return bool(self.ending or self.rests)

    def told(self) -> str:
        """Returns in words how it ended, or what it waits for where it goes no further."""
        if self.ending:
            return f"{self.ending}, steps {self.reached()}"
        kind, number = self.rests.split()
        waits = {"wait": "the children of ticket", "send": f"room for a word to {self.name.rsplit('.', 1)[0]}.", "receive": f"a word of {self.name.rsplit('.', 1)[0]}."}
        return f"it waits for {waits[kind]}{' ' if kind == 'wait' else ''}{number}, steps {self.reached()}"

    def pass_all(self, script: list[str], tickets: list[tuple[str, int]]) -> bool:
        """Runs it from the join of the first of these tickets to its end, and returns whether it came there."""
        lines, answers = self.family.rest_of(script, self.name, tickets)
        before, legs = [], []
        for line, answer in zip(lines, answers):
            if not line.startswith(f"step {self.name} "):
                before.append(line)
                continue
            made, why = re.fullmatch(r"\S+ ran (\d+) (.+)", answer).groups()
            legs.append((before, int(made)))
            before = []
        if not why.startswith("exit ") and why != "limit":
            return False
        own = [ticket for ticket, _ in tickets]
        at = self.reached()
        for ticket, (_, steps) in zip(own[1:], legs):
            at += steps
            self.joins[ticket] = at
        self.legs += legs
        self.ending = why
        return True

    def lines_within(self, start: int, count: int) -> Iterator[list[str]]:
        """Yields, for each of so many steps from one on, the lines that come before it, but for those before the first, which
        are in the script up to there."""
        at, before = self.born, []
        for lines, steps in self.legs:
            if at > start:
                before = before + lines
            for place in range(max(at, start), min(at + steps, start + count)):
                yield before
                before = []
            at += steps

    def extend(self, target: int) -> None:
        """Runs it until it counts so many steps or has ended, past its waits."""
        while self.reached() < target and not self.is_over():
            self.pass_wait()
            if self.reached() < target and not self.is_over():
                self.step(target - self.reached())

    def has(self, child: str, count: int) -> bool:
        """Returns whether a child is there when this counts so many steps."""
        return not self.family.ask(self.script_to(count), [f"step {child} 0"])[0].endswith(" none")

    def child(self, name: str) -> "Machine":
        """Returns a child by its name."""
        seen = self.born
        ticket = name.rsplit(".", 2)[1]
        while not self.is_over():
            self.pass_wait()
            if ticket in self.joins and self.has(name, self.joins[ticket] - 1):
                return self.born_between(name, self.born, self.joins[ticket] - 1)
            if self.is_over():
                break
            self.step(MOST)
            if self.has(name, self.reached()):
                return self.born_between(name, seen, self.reached())
            seen = self.reached()
        return self.killed_child(name)

    def born_between(self, name: str, low: int, high: int) -> "Machine":
        """Returns a child that is not there at one count and is at another."""
        while high - low > 1:
            middle = (low + high) // 2
            low, high = (low, middle) if self.has(name, middle) else (middle, high)
        return Machine(self.family, name, self.script_to(high), high)

    def killed_child(self, name: str) -> "Machine":
        """Returns a child that was gone where this waited or had ended: it looks for it ever more closely."""
        stride = 4096
        while stride:
            start = self.born
            for _, steps in self.legs:
                samples = min(STEPS_IN_A_SCRIPT, self.family.room(self.script_to(start), len(self.name) + len(name) + 25))
                for first in range(start, start + steps, stride * samples):
                    counts = range(first, min(start + steps, first + stride * samples), stride)
                    lines = [line for _ in counts for line in (f"step {name} 0", f"step {self.name} {stride}")]
                    there = [not answer.endswith(" none") for answer in self.family.ask(self.script_to(first), lines)[::2]]
                    if True in there:
                        found = counts[there.index(True)]
                        return self.born_between(name, max(self.born, found - stride), found)
                start += steps
            stride //= 16
        raise Problem(f"there is no machine {name}")


class Disk:
    """A disk and its port, which follow the stores of a machine."""

    def __init__(self, data: bytes):
        self.sectors = [data[at : at + SECTOR_SIZE] for at in range(0, len(data), SECTOR_SIZE)]
        self.sector, self.buffer = 0, bytearray(SECTOR_SIZE)

    def store(self, address: int, value: int) -> None:
        place = address - BLOCK - BUFFER
        if address == BLOCK + SECTOR:
            self.sector = value
        elif address == BLOCK + BLOCK_COMMAND and self.sector < len(self.sectors):
            if value == READ:
                self.buffer[:] = self.sectors[self.sector]
            elif value == WRITE:
                self.sectors[self.sector] = bytes(self.buffer)
        elif 0 <= place < SECTOR_SIZE:
            self.buffer[place : place + 4] = value.to_bytes(4, "little")
