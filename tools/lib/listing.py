"""Shows the steps of a machine as lines."""

from lib.families import STEPS_IN_A_SCRIPT
from lib.harts import DATA, PEER, TALK, note_of, store_of
from lib.instructions import decode, lack_of
from lib.ports import EXIT_BYTES, RAM, RECEIVE, SEND
from lib.sayings import CAUSES
from lib.traces import Step, Steps


class Listing:
    """Prints steps of a machine, and what is asked about the last of them."""

    def __init__(self, steps: Steps, names: list[str]):
        self.steps, self.machine, self.image = steps, steps.machine, steps.image
        self.symbols, self.names = steps.image.symbols, names
        # the function and the line of the source of the step that was shown last, and its mode
        self.function, self.line, self.was_user = "", "", False
        # how many steps it counts behind the last that was shown, and what its sibling port is known to have there
        self.shown = self.machine.born
        self.told: dict[int, int | None] = {}

    def place_of(self, address: int) -> str:
        """Returns an address with its function, and with the file and the line where the image has them."""
        line = self.image.line_of(address)
        return f"{self.symbols.place_of(address)} at {line}" if line else self.symbols.place_of(address)

    def say_trap(self, count: int, step: Step) -> None:
        state, word, after, trap, is_user = step
        cause, value, denied = trap
        text = "80000007, the timer's interrupt" if cause >> 31 else f"{cause}, {CAUSES[cause]}"
        mode = " from user mode" if is_user else ""
        print(f"step {count} is a trap{mode}: cause {text}; pc {self.place_of(state.pc)}, value {value:08x}")
        if denied:
            print(f"memory protection denies it: {denied}")
        if RAM <= after.pc < self.steps.ram_end:
            print(f"it goes to the handler at {self.symbols.place_of(after.pc)}")
        else:
            print(f"it goes to {after.pc:08x}, where there is no handler: mtvec was not set")
        if lack := lack_of(word) if cause == 2 and word is not None else "":
            cure = "" if lack.startswith("an access") else ": compile with -march=rv32ima_zicsr -mabi=ilp32"
            print(f"the word is {lack}, which a machine has not{cure}" if cure else f"the word is {lack}")
        if is_user is None and (others := self.steps.others_of(state, word, trap)):
            print(f"or it is {' or '.join(others)}: snow drive does not tell them apart, and this is behind --follow")

    def say_place(self, pc: int) -> None:
        """Says the function and the line of the source, where a step is in another than the one before it."""
        found, line = self.symbols.find(pc), self.image.line_of(pc)
        if found and found[0] != self.function:
            self.function, self.line = found[0], line
            print(f"{self.function} ({line}):" if line else f"{self.function}:")
        elif line and line != self.line:
            self.line = line
            print(f"{line}:")

    def say_step(self, count: int, step: Step) -> None:
        state, word, after, trap, is_user = step
        if is_user is not None and is_user != self.was_user:
            self.was_user = is_user
            print("in user mode" if is_user else "in machine mode")
        self.say_place(state.pc)
        known = decode(word) if word is not None else None
        text = known.text(state.pc, self.names, self.symbols.place_of) if known else "no instruction"
        shown = f"{word:08x}" if word is not None else "--------"
        changes = []
        if after:
            pairs = zip(self.names, state.registers(), after.registers())
            changes = [f"{name} = {new:08x}" for name, old, new in pairs if old != new]
        if not trap and known:
            changes.append(note_of(state, known, self.steps.ram_end) + self.talk_of(store_of(state, word), count))
        told = ", ".join(change for change in changes if change)
        print(f"{count:>7}  {state.pc:08x}  {shown}  {text:<30}  {told}".rstrip())

    def show(self, first: int, count: int, goes_on: bool) -> None:
        """Shows so many steps from one on, or fewer where it traps or ends."""
        machine = self.machine
        machine.extend(first - 1)
        at, left, final = min(first - 1, machine.reached()), count, None
        while left and not (machine.is_over() and at >= machine.reached()):
            machine.extend(min(at + left, at + STEPS_IN_A_SCRIPT))
            found = list(self.steps.between(at, min(left, machine.reached() - at, STEPS_IN_A_SCRIPT)))
            self.image.look_up({step[0].pc for step in found})
            for step in found:
                at, left = at + 1, left - 1
                self.shown = at
                final = None if step[2] else step
                self.say_step(at, step)
                if step[3]:
                    self.say_trap(at, step)
                    if not goes_on:
                        return
        if machine.ending and at >= machine.reached():
            print(f"machine {machine.name} has ended: {machine.told()}{self.handed(final)}")
        elif machine.rests and at >= machine.reached():
            print(f"machine {machine.name} goes no further: {machine.told()}")

    def handed(self, final: Step | None) -> str:
        """Returns the bytes that the machine handed over as it ended, in words, or nothing where there are none. Its last step is
        given, if it is known. The bytes are those of its memory there."""
        machine = self.machine
        end = machine.reached()
        if machine.ending == "limit" or end == machine.born:
            return ""
        state, word = (final or next(self.steps.between(end - 1, 1)))[:2]
        asked = state.register(decode(word).rs2)
        if asked & 0xFF != EXIT_BYTES or not asked >> 8:
            return ""
        first = self.steps.second_argument(end - 1)
        return f", handed {self.steps.bytes_at(end - 1, first, first + (asked >> 8)).hex()}"

    def talk_of(self, store: tuple[int, int] | None, count: int) -> str:
        """Returns what a store to COMMAND of the sibling port says, in words, and nothing for other stores. PEER and DATA are 0 in
        a machine that has not stored there, and DATA is not known where a RECEIVE was the last to change it."""
        if not store:
            return ""
        address, value = store
        if address in (PEER, DATA):
            self.told[address] = value
        if address != TALK or value not in (SEND, RECEIVE):
            return ""
        if PEER not in self.told:
            self.told[PEER] = (self.steps.last_store(count - 1, lambda at, _: at == PEER) or (PEER, 0))[1]
        sibling = f"{self.machine.name.rsplit('.', 1)[0]}.{self.told[PEER]}" if self.steps.parent else f"sibling {self.told[PEER]}"
        if value == RECEIVE:
            self.told[DATA] = None
            return f" of {sibling}"
        if DATA not in self.told:
            last = self.steps.last_store(count - 1, lambda at, word: at == DATA or (at, word) == (TALK, RECEIVE)) or (DATA, 0)
            self.told[DATA] = last[1] if last[0] == DATA else None
        word = "" if self.told[DATA] is None else f" {self.told[DATA]:08x}"
        return f"{word} to {sibling}"

    # ---- what is asked for behind the steps

    def there(self) -> int:
        """Returns the count of steps behind the last that was shown. A machine that has ended has no memory and no registers, and
        is asked behind the step before."""
        return self.shown - bool(self.machine.ending and self.shown == self.machine.reached())

    def say_registers(self, count: int) -> None:
        """Tells the registers of the machine where it counts so many steps."""
        self.machine.extend(count)
        if not self.machine.born <= count <= self.machine.reached():
            machine = self.machine
            told = machine.told() if machine.is_over() else f"steps {machine.reached()}"
            print(f"machine {machine.name} has no registers behind step {count}: it is made by step {machine.born}, and comes to {told}")
            return
        self.shown = count
        count = self.there()
        state = self.steps.state_at(count)
        print(f"registers behind step {count}: pc {self.place_of(state.pc)}")
        for row in range(8):
            numbers = range(row, 32, 8)
            print("  " + "  ".join(f"{self.names[number]:>4} {state.register(number):08x}" for number in numbers))

    def say_word(self, place: str) -> None:
        """Tells the word at an address."""
        address = self.image.address_of(place, "--word")
        at = self.there()
        word = self.steps.words_at(at, address, address + 1)[0] if address % 4 == 0 else None
        print(f"word {address:08x} behind step {at}: {'none' if word is None else f'{word:08x}'}")

    def say_dump(self, first: int, last: int) -> None:
        """Tells the bytes from one address to another, sixteen in a line."""
        at = self.there()
        print(f"memory behind step {at}:")
        words = self.steps.words_at(at, first & ~15, last + 1)
        for place in range(0, len(words), 4):
            row = words[place : place + 4]
            data = b"".join((word or 0).to_bytes(4, "little") for word in row)
            text = "".join(chr(byte) if 32 <= byte < 127 else "." for byte in data)
            shown = " ".join("--------" if word is None else word.to_bytes(4, "little").hex() for word in row)
            print(f"  {(first & ~15) + 4 * place:08x}  {shown:<35}  {text}")

    def say_writer(self, place: str, end: int) -> None:
        """Tells which step wrote the byte at an address last, before the machine counts so many steps."""
        address, machine = self.image.address_of(place, "--wrote"), self.machine
        if not RAM <= address < self.steps.ram_end:
            print(f"{address:08x} is not in RAM, which is {RAM:08x} to {self.steps.ram_end - 1:08x}")
            return
        found = self.steps.last_writer(address, end)
        if not found:
            since = "from its boot on: it is as the image has it"
            if machine.born:
                since = f"since step {machine.born}, which made it: --machine {machine.name.rsplit('.', 2)[0]} tells of before"
            print(f"no step up to {end} of machine {machine.name} changed the byte at {address:08x} {since}")
            return
        step, is_last = found
        if is_last:
            print(f"the byte at {address:08x} was written last, up to step {end}, by step {step}:")
        else:
            print(f"the byte at {address:08x} came to be what it is at step {end} by step {step}; it may have been written again with the same:")
        self.function = self.line = ""
        for made in self.steps.between(step - 1, 1):
            self.say_step(step, made)
