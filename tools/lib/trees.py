"""The tree of a family, as lines of text and as a picture."""

from collections.abc import Iterator

from lib import reports

DEEPEST = 8
LONGEST_NAME = 24
MOST_SHOWN = 24


def counted(number: int, one: str, many: str) -> str:
    """Returns a number of things in words."""
    return f"{number} {one if number == 1 else many}"


def span(numbers: list[int]) -> str:
    """Returns from where to where numbers go."""
    low, high = min(numbers), max(numbers)
    return str(low) if low == high else f"{low} to {high}"


class Row:
    """A line of the tree: what it is for the picture, its text in two parts, its steps from and to, and the rows below."""

    def __init__(self, kind: str, name: str, text: str, steps: tuple[int, int] = (0, 0), rows: "list[Row] | tuple[()]" = ()):
        self.kind, self.name, self.text, self.steps, self.rows = kind, name, text, steps, rows


def shown(name: str) -> str:
    """Returns a name, or the end of a long one and how many forks it comes from."""
    if len(name) <= LONGEST_NAME:
        return name
    parts = name.split(".")
    return f"... .{'.'.join(parts[-2:])}, depth {len(parts) // 2}"


def shown_bytes(data: bytes) -> str:
    """Returns bytes in hexadecimal, or the first of many and how many they are."""
    if len(data) <= MOST_SHOWN:
        return data.hex()
    return f"{data[:MOST_SHOWN].hex()}.., {len(data)} bytes"


def row_of(item: reports.Item, rows: list[Row] | tuple[()] = ()) -> Row:
    if isinstance(item, reports.Killed):
        return Row("killed", f"ticket {shown(item.name)}", f"killed {item.count}")
    over = f", handed {shown_bytes(item.handed)}" if item.handed else ""
    return Row(item.ending, shown(item.name), f"{item.told()}, steps {item.steps}, out {item.out}{over}", (item.steps, item.steps), rows)


def folded(items: list[reports.Item]) -> Row:
    """Returns one row for one item or more and all below them."""
    everything = list(reports.below(items))
    machines = [item for item in everything if isinstance(item, reports.Machine)]
    killed = [item for item in everything if isinstance(item, reports.Killed)]
    values = [machine.value for machine in machines if machine.value is not None]
    parts = [counted(len(machines), "machine", "machines")] if machines else []
    if values:
        parts.append(f"{len(values)} exit {span(values)}")
    for ending in ("limit", "stuck"):
        count = sum(machine.ending == ending for machine in machines)
        if count:
            parts.append(f"{count} {ending}")
    if machines:
        parts.append(f"steps {span([machine.steps for machine in machines])}")
        parts.append(f"out {sum(machine.out for machine in machines)} in all")
        over = sum(len(machine.handed) for machine in machines)
        if over:
            parts.append(f"handed {over} bytes in all")
    if killed:
        children = sum(ticket.count for ticket in killed)
        parts.append(f"{counted(len(killed), 'ticket', 'tickets')} killed, of {counted(children, 'child', 'children')}")
    name = shown(items[0].name) + (f" to {shown(items[-1].name)}" if len(items) > 1 else "")
    steps = [machine.steps for machine in machines] or [0]
    return Row("folded", name, ", ".join(parts), (min(steps), max(steps)))


def arranged(items: list[reports.Item], room: int, depth: int = 0) -> list[Row]:
    """Returns the rows of items, so many or a few more, with what is below them."""
    if sum(item.lines for item in items) <= room:
        return [row_of(item, arranged(item.log, room)) for item in items]
    if room < 3 or depth > DEEPEST:
        return [folded(items)] if len(items) > 1 or items[0].log else [row_of(items[0])]
    if sum(1 + bool(item.log) for item in items) > room:
        head = max(1, min(8, room - 2, len(items) - 2))
        share = (room - 1) // (head + 1)
        shares = [arranged([item], share, depth) for item in items[:head] + items[-1:]]
        middle = [folded(items[head:-1])] if items[head:-1] else []
        return [row for rows in shares[:-1] for row in rows] + middle + shares[-1]
    spare = room - sum(1 + bool(item.log) for item in items)
    rows = []
    for place, item in enumerate(items):
        share = spare // (len(items) - place)
        used = min(share, max(0, item.lines - 2))
        spare -= used
        rows.append(row_of(item, arranged(item.log, used + 1, depth + 1) if item.log else ()))
    return rows


def flat(rows: list[Row] | tuple[()], lead: str = "") -> Iterator[tuple[str, Row]]:
    """Yields rows from the top down, each with the lines before it."""
    for place, row in enumerate(rows):
        last = place == len(rows) - 1
        yield lead + ("└─ " if last else "├─ "), row
        yield from flat(row.rows, lead + ("   " if last else "│  "))


def lines_of(root: Row) -> Iterator[tuple[str, Row]]:
    yield "", root
    yield from flat(root.rows)


def text_of(root: Row) -> str:
    lines = list(lines_of(root))
    width = max(len(lead) + len(row.name) for lead, row in lines) + 2
    return "".join(f"{lead + row.name:<{width}}{row.text}\n" for lead, row in lines)


def svg_of(root: Row) -> str:
    """Returns the tree as a picture: a dot for each row, in the colour of its ending, and bars for the steps."""
    height, indent, letter = 20, 18, 7.3
    colours = {"exit": "#2e7d32", "limit": "#ef6c00", "stuck": "#6a1b9a", "killed": "#c62828", "folded": "#546e7a"}
    lines = list(lines_of(root))
    most = max(1, max(row.steps[1] for _, row in lines))
    text_at = 28 + max(indent * (len(lead) // 3) + letter * len(row.name) for lead, row in lines)
    bar_at = text_at + 12 + max(letter * len(row.text) for _, row in lines)
    width, below_all = bar_at + 220, height * (len(lines) + 1)
    parts = [
        f'<svg xmlns="http://www.w3.org/2000/svg" width="{width:.0f}" height="{below_all}" font-family="monospace" font-size="12">',
        '<rect width="100%" height="100%" fill="white"/>',
    ]
    above = []
    for place, (lead, row) in enumerate(lines):
        depth, y = len(lead) // 3, height * (place + 1)
        x = 12 + indent * depth
        if depth:
            parts.append(f'<path d="M{x - indent} {above[depth - 1] + 5}V{y}H{x - 5}" fill="none" stroke="#b0bec5"/>')
        above[depth:] = [y]
        colour = colours[row.kind]
        low, high = (bar_at + 200 * steps / most for steps in row.steps)
        parts.append(f'<g><title>{row.name}: {row.text}</title><circle cx="{x}" cy="{y}" r="4" fill="{colour}"/>')
        parts.append(f'<text x="{x + 10}" y="{y + 4}">{row.name}</text>')
        parts.append(f'<text x="{text_at:.0f}" y="{y + 4}" fill="{colour}">{row.text}</text>')
        if row.steps[1]:
            parts.append(f'<rect x="{bar_at:.0f}" y="{y - 4}" width="{max(1, low - bar_at):.1f}" height="8" fill="{colour}"/>')
            if high > low:
                parts.append(f'<rect x="{low:.1f}" y="{y - 4}" width="{high - low:.1f}" height="8" fill="{colour}" opacity="0.4"/>')
        parts.append("</g>")
    return "\n".join(parts) + "\n</svg>\n"


