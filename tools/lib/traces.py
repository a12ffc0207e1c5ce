"""The steps of a machine as lines, and what is found out about them."""

import copy
import re
from collections.abc import Callable, Iterator

from lib import progress, scripts
from lib.command import Problem
from lib.families import MOST, STEPS_IN_A_SCRIPT, Disk, Machine
from lib.harts import ARG0, ARG1, COMMAND, Control, State, Trap
from lib.harts import denials, foresee, store_of, written_by
from lib.images import Image
from lib.instructions import decode
from lib.ports import PAGE, RAM, ZERO
from lib.sayings import CAUSES

# How many steps before a place are looked at one by one.
NEAR = 30000

# A step: the states before and after it, None after the step that ends the machine; the word that it fetches, None outside RAM;
# its trap, or None; and whether it is made in user mode, None where it is not followed so far.
Step = tuple[State, int | None, State | None, Trap | None, bool | None]


class Steps:
    """The steps of a machine. Where its image may have traps that the registers do not tell, it follows what they depend on from
    the boot on, or from the steps of the machine's parent."""

    def __init__(self, machine: Machine, image: Image, ram_end: int, most: int, parent: "Steps | None" = None):
        self.machine, self.image, self.ram_end, self.parent = machine, image, ram_end, parent
        # whether the image has an access to mie, without which no interrupt comes
        self.may_be_interrupted = bool(re.search(rb"[\x73\xf3][\x00-\xff][\x40-\x4f]\x30", image.data))
        # whether it has MRET, without which no user mode comes
        self.may_be_user = b"\x73\x00\x20\x30" in image.data
        # whether it has that, or an access to a register of memory protection, without which nothing is denied
        self.may_be_denied = self.may_be_user or bool(re.search(rb"[\x73\xf3][\x00-\xff][\x00-\xff][\x3a\x3b]", image.data))
        # the last step that it follows, and the control behind some steps
        self.most = most if self.may_be_interrupted or self.may_be_denied else 0
        self.controls: dict[int, Control] = {}

    def control_at(self, count: int) -> Control | None:
        """Returns the control of the machine where it counts so many steps, or None where it does not follow it so far."""
        if count >= self.most:
            return None
        if not self.controls:
            born = self.machine.born
            control = self.parent.control_at(born) if self.parent else Control()
            if not control:
                return None
            self.controls[born] = control
        at = max(known for known in self.controls if known <= count)
        self.machine.extend(count)
        while at < count:
            for _ in self.between(at, min(count - at, STEPS_IN_A_SCRIPT)):
                at += 1
                progress.tell(lambda: f"follows the mode and the registers of machine {self.machine.name}: step {at} of {count}")
        return copy.deepcopy(self.controls[count])

    def between(self, start: int, count: int) -> Iterator[Step]:
        """Yields each of at most so many steps behind a count."""
        control = self.control_at(start)
        states, words = self.states(start, count)
        at = start
        for state, word, after in zip(states, words, states[1:]):
            is_user = control.user if control else None
            trap = self.follow(control, state, word, after) if control else self.trap_of(state, word, after)
            at += 1
            if control and at == self.most:
                control = None
            if control and (at % 1000 == 0 or at == start + count):
                self.controls[at] = copy.deepcopy(control)
            yield state, word, after, trap, is_user
        if self.machine.ending and at + 1 == self.machine.reached() and at < start + count:
            yield states[-1], words[-1], None, None, control.user if control else None

    def follow(self, control: Control, state: State, word: int | None, after: State) -> Trap | None:
        """Has the control make a step, and returns its trap, or None. Where the step shows that it is not as it was derived,
        there is no trace."""
        known = decode(word) if word is not None else None
        is_read = known and known.form == "CSR" and known.rd
        wanted = control.read(known.csr) if is_read else None
        trap, target = control.step(state, word, self.ram_end)
        name = self.machine.name
        if target != after.pc:
            raise Problem(f"machine {name} goes from {state.pc:08x} to {after.pc:08x}, and not to {target:08x}")
        if not trap and wanted is not None and after.register(known.rd) != wanted:
            raise Problem(f"machine {name} reads {after.register(known.rd):08x} at {state.pc:08x}, and not {wanted:08x}")
        return trap

    def states(self, start: int, count: int) -> tuple[list[State], list[int | None]]:
        """Returns the states before and after each of at most so many steps, fewer where it waits or ends, and the word that
        each step fetches, None outside RAM."""
        machine = self.machine
        script = machine.script_to(start)
        regs, step = f"regs {machine.name}", f"step {machine.name} 1"
        left = scripts.LONGEST - sum(len(line) + 1 for line in script) - len(regs) - 1
        lines: list[str] = []
        for before in machine.lines_within(start, count):
            left -= sum(len(line) + 1 for line in before) + len(regs) + len(step) + 13
            if left < 0 and lines:
                break
            lines += [*before, regs, step]
        lines.append(regs)
        states: list[State] = []
        told = zip(lines, machine.family.ask(script, lines))
        for answer in [answer for line, answer in told if line in (regs, step)]:
            if answer.endswith(" none") or " ran 0 " in answer:
                break
            if " regs " in answer:
                states.append(State(answer))
        places = iter(states)
        shown = lines[: end_of(lines, regs, len(states))]
        peeks = [f"peek {machine.name} {next(places).pc & ~3:08x}" if line == regs else line for line in shown]
        words = [answer.split()[-1] for line, answer in zip(peeks, machine.family.ask(script, peeks)) if line.startswith("peek ")]
        return states, [None if word == "none" else int(word, 16) for word in words]

    def trap_of(self, state: State, word: int | None, after: State) -> Trap | None:
        """Returns the trap that a step may have been, where it does not follow the machine so far, or None. Where an exception
        and an interrupt would both come it is the interrupt, but only the machine's mcause tells that."""
        exception, target = foresee(state, word, self.ram_end, Control())
        if exception is None and target not in (None, after.pc):
            is_denied = self.may_be_denied and not self.may_be_interrupted
            return denials(state, word)[0] if is_denied else (0x80000007, 0, None)
        return exception

    def others_of(self, state: State, word: int | None, trap: Trap) -> list[str]:
        """Returns what else a step may have been that was this trap, where it does not follow the machine so far."""
        others: list[Trap] = []
        if self.may_be_denied and word is not None:
            exception, _ = foresee(state, word, self.ram_end, Control())
            others = [other for other in ([(1, state.pc, None)] if exception else denials(state, word)) if other != trap]
        if trap[0] == 11 and self.may_be_user:
            others.append((8, 0, None))
        told = [f"cause {cause}, {CAUSES[cause]}, value {value:08x}" for cause, value, _ in others]
        return told + ["the interrupt of the timer, if that was due"] * bool(not trap[0] >> 31 and self.may_be_interrupted)

    def state_at(self, count: int) -> State:
        """Returns the state of the machine where it counts so many steps, before its end."""
        machine = self.machine
        answer = machine.family.ask(machine.script_to(count), [f"regs {machine.name}"])[0]
        if " regs " not in answer:
            raise Problem(f"machine {machine.name} has no registers behind step {count}: {machine.told() if machine.is_over() else 'it is gone'}")
        return State(answer)

    def last_alive(self) -> int:
        """Returns the greatest count of steps at which the machine lives, of those that it has made."""
        machine = self.machine
        return machine.reached() - bool(machine.ending)

    # ---- what is looked for

    def first_of(self, first: int, is_wanted: Callable[[State, Trap | None], object], last: int | None = None) -> int | None:
        """Returns the first step from one on whose state before it and trap are as wanted, or None where the machine ends before,
        or does not come to it up to a last one."""
        machine, chunk = self.machine, 1000
        machine.extend(first - 1)
        at = min(first - 1, machine.reached())
        while last is None or at < last:
            machine.extend(at + chunk)
            if machine.reached() == at:
                return None
            for state, _, after, trap, _ in self.between(at, min(chunk, machine.reached() - at)):
                at += 1
                if is_wanted(state, trap):
                    return at
                if after is None:
                    return None
                progress.tell(lambda: f"looks at step {at} of machine {machine.name}")
            chunk = min(2 * chunk, STEPS_IN_A_SCRIPT)
        return None

    def last_of(self, end: int, is_wanted: Callable[[int, Step], object], most: int | None = None) -> int | None:
        """Returns the last step up to one that is wanted, by its number and itself, or None where there is none among so many
        before it."""
        start, chunk, found = end, 64, None
        least = max(self.machine.born, end - most) if most else self.machine.born
        while start > least and found is None:
            end, start = start, max(least, start - chunk)
            at = start
            while at < end:
                for step in self.between(at, end - at):
                    at += 1
                    if is_wanted(at, step):
                        found = at
                    progress.tell(lambda: f"looks back at step {at} of machine {self.machine.name}")
            chunk = min(4 * chunk, STEPS_IN_A_SCRIPT)
        return found

    def trap_before_end(self) -> int | None:
        """Returns the last trap before the machine comes to its end, or to where its steps change nothing any more. Where none is
        near that it is the first of all. What is between is run by the program itself, and looked at in no step."""
        machine = self.machine
        machine.extend(2 * MOST)
        end = self.settled_at(self.last_alive())
        if end > machine.born and self.is_trap(end):
            return end
        found = self.last_of(end, lambda _, step: step[3], NEAR)
        if found is None and end - machine.born > NEAR:
            found = self.first_of(machine.born + 1, lambda _, trap: trap, end - NEAR)
        return found or (end + 1 if end < self.last_alive() and self.is_trap(end + 1) else None)

    def is_trap(self, step: int) -> bool:
        """Returns whether a step of the machine is a trap."""
        return any(found[3] for found in self.between(step - 1, 1))

    def settled_at(self, end: int) -> int:
        """Returns the first count of steps from which on no step changes the pc or a register, or the end where one does. A guest
        that waits in a loop to itself, or traps for ever without a handler, comes to that."""
        born = self.machine.born
        if end - born < 2:
            return end
        machine, regs = self.machine, f"regs {self.machine.name}"
        before, _, final = machine.family.ask(machine.script_to(end - 1), [regs, f"step {machine.name} 1", regs])
        if before != final:
            return end
        final = State(final).numbers
        low, high, stride = born - 1, born, 1
        while self.state_at(high).numbers != final:
            low, high, stride = high, min(end - 1, born + stride), 2 * stride
        while high - low > 1:
            middle = (low + high) // 2
            low, high = (low, middle) if self.state_at(middle).numbers == final else (middle, high)
        return high

    def last_store(self, end: int, is_wanted: Callable[[int, int], object]) -> tuple[int, int] | None:
        """Returns the address and the word of the last store of the machine, before it counts so many steps, that is wanted, or
        None where there is none."""
        found = None

        def look(_: int, step: Step) -> bool:
            nonlocal found
            store = None if step[3] else store_of(step[0], step[1])
            is_found = bool(store and is_wanted(*store))
            found = store if is_found else found
            return is_found

        self.last_of(end, look)
        return found

    def second_argument(self, end: int) -> int:
        """Returns what is in ARG1 where the machine counts so many steps. `snow drive` does not show it: it is what the last
        store put there, of the machine or of those that it comes from."""
        found = self.last_store(end, lambda address, _: address == ARG1)
        if found:
            return found[1]
        return self.parent.second_argument(self.machine.born) if self.parent else 0

    def first_argument(self, end: int) -> int:
        found = self.last_store(end, lambda address, _: address == ARG0)
        return found[1] if found else self.parent.first_argument(self.machine.born) if self.parent else 0

    def writes(self, count: int, step: Step, address: int) -> bool:
        """Returns whether a step, behind so many, writes the byte at an address of RAM."""
        state, word, after, trap, _ = step
        written = None if trap else written_by(state, word)
        if not written:
            return False
        at, width = written
        if at == COMMAND and store_of(state, word) == (COMMAND, ZERO):
            first, pages = self.first_argument(count), self.second_argument(count)
            return first <= (address - RAM) // PAGE < first + pages
        known = decode(word)
        failed = known.name == "sc.w" and after and known.rd and after.register(known.rd)
        return at <= address < at + width and not failed

    def words_at(self, count: int, first: int, behind: int) -> list[int | None]:
        """Returns the words of memory from an address to another, where the machine counts so many steps."""
        machine = self.machine
        lines = [f"peek {machine.name} {address:08x}" for address in range(first & ~3, behind, 4)]
        script, words = machine.script_to(count), []
        while lines:
            room = machine.family.room(script, len(lines[0]) + 1)
            words += [answer.split()[-1] for answer in machine.family.ask(script, lines[:room])]
            lines = lines[room:]
        return [None if word == "none" else int(word, 16) for word in words]

    def bytes_at(self, count: int, first: int, behind: int) -> bytes:
        words = self.words_at(count, first, behind)
        return b"".join((word or 0).to_bytes(4, "little") for word in words)[first % 4 :][: behind - first]

    def last_writer(self, address: int, end: int) -> tuple[int, bool] | None:
        """Returns the step that wrote the byte at an address last, before the machine counts so many steps, and whether each step
        was looked at for that; else it is the step by which the byte came to be what it is, and a later write of the same is not
        known. None where it was not written since the machine was born."""
        born = self.machine.born
        found = self.last_of(end, lambda at, step: self.writes(at - 1, step, address), NEAR)
        if found is not None:
            return found, True
        final = self.bytes_at(end, address, address + 1)
        low, high, stride = end - NEAR, end, NEAR
        while low > born and self.bytes_at(low, address, address + 1) == final:
            low, high, stride = low - stride, low, 2 * stride
        low = max(low, born)
        if self.bytes_at(low, address, address + 1) == final:
            return None
        while high - low > 1:
            middle = (low + high) // 2
            low, high = (low, middle) if self.bytes_at(middle, address, address + 1) == final else (middle, high)
        return high, False

    def store_to(self, disk: Disk, end: int) -> None:
        """Has a disk follow the stores of the machine until it counts so many steps."""
        machine = self.machine
        machine.extend(end)
        at = machine.born
        while at < min(end, machine.reached()):
            for state, word, _, trap, _ in self.between(at, min(end - at, machine.reached() - at, STEPS_IN_A_SCRIPT)):
                at += 1
                store = None if trap else store_of(state, word)
                if store:
                    disk.store(*store)
                progress.tell(lambda: f"follows the disk of machine {machine.name}: step {at} of {end}")


def end_of(lines: list[str], wanted: str, count: int) -> int:
    """Returns where lines end that have a wanted one so many times."""
    places = [place for place, line in enumerate(lines) if line == wanted]
    return places[count - 1] + 1 if count else 0
