#!/usr/bin/env python3
"""Draws history texts, and outputs of races, as pictures in SVG.

    bench/draw.py [FILE]   writes the picture of FILE, or of standard input, to standard output
    bench/draw.py --all    writes docs/pictures/NAME.svg for each of PICTURES: those of README.md and docs/CLOSING.md
    bench/draw.py --check  writes nothing, and ends with status 1 where
                           - one of these isn't what --all would write,
                           - no page shows it,
                           - docs/pictures/ has another file.

docs/SCRIPTS.md, "Pictures", says how to read one. It needs the standard library of Python 3.10 or later alone. `rt ci`
runs no Python, so the test run can't do this.
"""

from __future__ import annotations

import glob
import os
import re
import sys
import textwrap
from collections import defaultdict
from collections.abc import Iterable, Iterator
from dataclasses import dataclass
from enum import Enum
from itertools import accumulate, chain, takewhile
from math import inf
from xml.sax.saxutils import escape

TOP = os.path.dirname(os.path.dirname(os.path.abspath(__file__)))
FOLDER = "docs/pictures"
PAGES = ("README.md", "docs/CLOSING.md")


@dataclass(frozen=True)
class Panel:
    """A part of a picture: a text, the columns of it that are shown, and a line above them."""

    path: str
    heading: str = ""
    # the order of lines behind `go`: at `t1` that caller makes its next one, or begins it at `t1(` and ends it at `t1)`
    order: str = ""
    first: int = 1
    last: int | None = None


@dataclass(frozen=True)
class Picture:
    title: str
    panels: tuple[Panel, ...]


REGISTERING = "examples/closing_while_registering"
READING = "examples/closing_while_reading"
PICTURES = {
    "closing_a_channel": Picture(
        "One thread closes a channel while another selects on it", (Panel("examples/closing_while_selecting.history"),)
    ),
    "cancelling_a_key": Picture(
        "One thread cancels a key while another selects on it",
        (Panel("examples/cancelling_while_selecting.history"), Panel("examples/cancelling.history", last=11)),
    ),
    "waking_up": Picture(
        "One thread wakes the selector up while another is about to select",
        (Panel("examples/sticky_wakeup.history", last=10),),
    ),
    "interrupting": Picture(
        "One thread interrupts another while that selects", (Panel("examples/interrupting_while_selecting.history"),)
    ),
    "closing_a_selector": Picture(
        "One thread closes the selector while another selects on it",
        (Panel("examples/closing_in_two_parts.history", last=11),),
    ),
    "closing_while_registering": Picture(
        "One thread closes a channel while another registers it",
        (
            Panel(f"{REGISTERING}.out1", "Closed at first: refused.", "t2 t2 t1 t1", first=4),
            Panel(f"{REGISTERING}.out2", "Found closed after publishing: cancelled.", "t1( t2 t2 t1) t1", first=4),
            Panel(f"{REGISTERING}.out3", "Else the closing cancels the key.", "t1 t2 t2 t1", first=4),
        ),
    ),
    "closing_with_two_selectors": Picture(
        "One thread closes a channel on which two others select",
        (Panel("examples/closing_with_two_selectors.history"),),
    ),
    "closing_while_a_handler_runs": Picture(
        "One thread closes a channel while another runs a handler",
        (Panel("examples/closing_while_a_handler_runs.history"),),
    ),
    "closing_while_reading": Picture(
        "One thread closes a channel that another reads",
        (
            Panel(f"{READING}.out1", "The read waited: it ends.", "t1( t2 t1)"),
            Panel(f"{READING}.out2", "Closed before: refused.", "t2 t1"),
        ),
    ),
}


# ---- reading ----


@dataclass(frozen=True)
class Line:
    """A line of a history text, or of a race's output."""

    caller: str
    words: tuple[str, ...]
    reply: str
    behind_go: bool = False

    @property
    def call(self) -> str:
        return self.words[0]


HISTORY_LINE = re.compile(r"\d+ (t\d+) (.+?) -> (.+)")
RACE_LINE = re.compile(r"(t\d+) \d+ (.+?) -> (.+)")


def parse(text: str) -> list[Line]:
    """The lines of the text. A `ValueError` names the first that is neither of a history nor of a race's output."""
    lines = []
    for number, row in enumerate(text.splitlines(), 1):
        history, race = HISTORY_LINE.fullmatch(row), RACE_LINE.fullmatch(row)
        if found := history or race:
            caller, call, reply = found.groups()
            lines.append(Line(caller, tuple(call.split()), reply, race is not None))
        elif row and not row.startswith("#"):
            raise ValueError(f"bad line {number}")
    return lines


# ---- columns ----


@dataclass(frozen=True)
class Cell:
    """A line in its columns: that of its call, and that of its reply."""

    line: Line
    first: int
    last: int

    @property
    def middle(self) -> float:
        return self.last + 0.5


# calls that may end another's
ENDERS = ("wakeup", "interrupt", "close", "closec")


def setup_of(lines: list[Line]) -> list[Cell]:
    """The lines before `go`, a column for each."""
    return [Cell(line, at, at) for at, line in enumerate(it for it in lines if not it.behind_go)]


def in_columns(lines: list[Line]) -> list[Cell]:
    """A column for each line; behind `go` those of each caller begin anew, beside those of the others."""
    setup = setup_of(lines)
    of_caller: dict[str, list[Line]] = defaultdict(list)
    for line in lines:
        if line.behind_go:
            of_caller[line.caller].append(line)
    end = len(setup) + max(map(len, of_caller.values()), default=0)
    race: list[Cell] = []
    for own in of_caller.values():
        race += stretched(own, len(setup), end)
    # the story has to know what ends selections before it comes to them
    return setup + sorted(race, key=lambda it: it.line.call not in ENDERS)


def stretched(lines: list[Line], column: int, end: int) -> Iterator[Cell]:
    """A caller's lines behind `go`, the first `block` over all columns that the others leave."""
    spare = end - column - len(lines)
    for line in lines:
        wide = spare if line.call == "block" else 0
        spare -= wide
        yield Cell(line, column, column + wide)
        column += 1 + wide


def in_order(lines: list[Line], order: str) -> list[Cell]:
    """A column for each line before `go`, and then one for each word of the order, in the order of replies."""
    cells = setup_of(lines)
    left = [it for it in lines if it.behind_go]
    begun: dict[str, int] = {}
    for column, word in enumerate(order.split(), len(cells)):
        caller = word.rstrip("()")
        if word.endswith("("):
            begun[caller] = column
            continue
        line = next(it for it in left if it.caller == caller)
        left.remove(line)
        cells.append(Cell(line, begun.pop(caller, column), column))
    if left or begun:
        raise ValueError(f"the order {order!r} isn't of all lines behind go")
    return cells


# ---- what happens ----


class Ink(Enum):
    """What a thing is drawn in: its line, and its ground."""

    SELECT = ("#1d4ed8", "#dbeafe")
    CLOSE = ("#b91c1c", "#fee2e2")
    WAKE = ("#7e22ce", "#f3e8ff")
    CALL = ("#57606a", "#eaeef2")
    LIVE = ("#15803d", "#bbf7d0")

    @property
    def line(self) -> str:
        return self.value[0]

    @property
    def ground(self) -> str:
        return self.value[1]


@dataclass(eq=False)
class Bar:
    """A call that takes time, from the left edge of one column to the right edge of another."""

    ink: Ink
    caller: str
    label: str
    first: float
    last: float = inf
    # how many bars of its caller it lies within
    depth: int = 0


@dataclass(frozen=True)
class Part:
    """A state of a key or of an operation, and since when it is in that: a column and the part of it that is over."""

    name: str
    ink: Ink
    begin: float


@dataclass(eq=False)
class Strip:
    """What becomes of a key, or of an operation of a group."""

    name: str
    selector: str
    channel: str
    parts: list[Part]
    end: float
    # when an operation with a time limit times out
    deadline: float = inf
    # the line that ends it, and what it does to it
    ended_by: Cell | None = None
    ending: str = ""

    @property
    def state(self) -> str:
        return self.ending or self.parts[-1].name


@dataclass(frozen=True)
class Arrow:
    ink: Ink
    source: Cell
    target: Bar | Strip | Cell

    @property
    def is_up(self) -> bool:
        """Whether it leads to the lane of a caller above."""
        target = self.target
        return not isinstance(target, Strip) and number_of(caller_of(target)) < number_of(self.source.line.caller)

    @property
    def ends_upwards(self) -> bool:
        """Whether its head is at the lower edge of what it leads to, as also in its caller's own lane."""
        return self.is_up or not isinstance(self.target, Strip) and caller_of(self.target) == self.source.line.caller


def caller_of(target: Bar | Cell) -> str:
    return target.caller if isinstance(target, Bar) else target.line.caller


def end_column(target: Bar | Cell) -> float:
    """The column behind it."""
    return target.last if isinstance(target, Bar) else target.last + 1


def number_of(caller: str) -> int:
    return int(caller[1:])


VALID, CANCELLED, REMOVED = "valid", "cancelled", "removed"
PENDING, COMPLETED, HANDLER, DONE = "pending", "completed", "handler", "done"
SELECT_LABELS = {"now": "selectNow()", "wait": "select()"}
REFUSALS = ("closed-channel", "async-close")


class Story:
    """The bars, keys, operations and arrows of a text."""

    def __init__(self, cells: list[Cell], is_ordered: bool) -> None:
        """Of these cells: in the order of their replies, if that is known behind `go`."""
        self.cells, self.is_ordered = cells, is_ordered
        self.end = 1 + max((it.last for it in cells), default=-1)
        self.go = min((it.first for it in cells if it.line.behind_go), default=None)
        self.keys_end = inf if is_ordered or self.go is None else self.go
        self.bars: list[Bar] = []
        self.arrows: list[Arrow] = []
        self.keys: dict[tuple[str, str], Strip] = {}
        self.operations: dict[str, Strip] = {}
        # the selection and the closing in progress on each selector
        self.selecting: dict[str, Bar] = {}
        self.closing: dict[str, Bar] = {}
        # who closed a channel or a selector; who woke a selector or interrupted a caller, and that wasn't used up since
        self.closed: dict[str, Cell] = {}
        self.wakeups: dict[str, list[Cell]] = defaultdict(list)
        self.interrupts: dict[str, list[Cell]] = defaultdict(list)
        for cell in cells:
            self.add(cell)

    @property
    def strips(self) -> list[Strip]:
        return [*self.keys.values(), *self.operations.values()]

    def add(self, cell: Cell) -> None:
        reply = tuple(cell.line.reply.split())
        if cell.first < cell.last and cell.line.call != "block":
            self.open_bar(Ink.CALL, cell, "").last = cell.last + 1
        self.add_refusal(cell)
        if cell.first < self.keys_end:
            self.add_key_call(cell, reply)
        self.add_selection(cell, reply)
        self.add_ending(cell, reply)
        self.add_group_call(cell, reply)

    def add_key_call(self, cell: Cell, reply: tuple[str, ...]) -> None:
        match cell.line.words, reply:
            case ("register", selector, channel, *_), (key,) if re.match(r"k\d", key):
                self.register(cell, selector, channel, key)
            case ("cancel", selector, key), ("ok",):
                self.cancel(cell, [self.keys[selector, key]] if (selector, key) in self.keys else [])
            case ("closec", channel), ("ok",):
                self.cancel(cell, [it for it in self.keys.values() if it.channel == channel])

    def add_selection(self, cell: Cell, reply: tuple[str, ...]) -> None:
        match cell.line.words, reply:
            case ("begin", selector, *mode), ("looked", *_):
                self.remove_cancelled(cell, selector, cell.middle)
                self.selecting[selector] = self.open_bar(Ink.SELECT, cell, select_label(mode))
            case ("told", selector, *_), ("selected", _, why):
                self.end_selection(cell, selector, why)
                self.remove_cancelled(cell, selector, cell.last + 1)
            case ("failed", selector), ("left",):
                self.selecting.pop(selector).last = cell.last + 1
            case ("block", selector), ("selected", _, why):
                self.selecting[selector] = self.open_bar(Ink.SELECT, cell, select_label(["wait"]))
                self.end_selection(cell, selector, why)

    def add_ending(self, cell: Cell, reply: tuple[str, ...]) -> None:
        """What may end a call of another."""
        match cell.line.words, reply:
            case ("wakeup", selector), ("ok",):
                self.wakeups[selector].append(cell)
            case ("interrupt", caller), ("ok",):
                self.interrupts[caller].append(cell)
            case ("interrupted",), ("yes",):
                self.interrupts[cell.line.caller].clear()
            case ("closec", channel), ("ok",):
                self.closed[channel] = cell
            case ("close", selector), ("closing",):
                self.closed[selector] = cell
                self.closing[selector] = self.open_bar(Ink.CLOSE, cell, "close()")
            case ("close-end", selector), ("closed",):
                self.closing.pop(selector).last = cell.last + 1
                for key in self.keys.values():
                    if key.selector == selector:
                        self.end_strip(key, cell, cell.last + 1, REMOVED)

    def add_group_call(self, cell: Cell, reply: tuple[str, ...]) -> None:
        match cell.line.words, reply:
            case ("start" | "start-timed", channel, kind, length, *limit), ("op", number):
                self.start(cell, channel, number, length == "0" and kind in ("read", "write"))
                self.operations[number].deadline = deadline_of(limit)
            case ("report", number, *_), ("ok",):
                self.complete(cell, self.operations[number])
            case ("expire", now), _:
                for operation in self.operations.values():
                    if operation.state == PENDING and operation.deadline <= int(now):
                        self.complete(cell, operation)
            case ("gclose", channel), ("ok",):
                self.closed[channel] = cell
                self.close_operations(cell, [it for it in self.operations.values() if it.channel == channel])
            case ("shutdown-now",), ("ok",):
                self.close_operations(cell, self.operations.values())
            case ("take",), ("op", number, *_):
                self.operations[number].parts.append(Part(HANDLER, Ink.SELECT, cell.middle))
            case ("done", number), ("ok",):
                self.end_strip(self.operations[number], cell, cell.last + 1, DONE)

    def open_bar(self, ink: Ink, cell: Cell, label: str) -> Bar:
        """A bar that begins at the cell, and goes on until it is ended."""
        depth = sum(it.caller == cell.line.caller and it.last > cell.first for it in self.bars)
        self.bars.append(Bar(ink, cell.line.caller, label, cell.first, depth=depth))
        return self.bars[-1]

    def add_refusal(self, cell: Cell) -> None:
        """The arrow from who closed the channel, or interrupted the caller, to a call that says so."""
        line = cell.line
        if line.reply in REFUSALS:
            closings = [self.closed[it] for it in line.words if it in self.closed]
            self.arrows += [Arrow(Ink.CLOSE, it, cell) for it in closings if it.line.caller != line.caller]
        elif line.reply == "closed-by-interrupt":
            self.arrows += [Arrow(Ink.WAKE, it, cell) for it in self.interrupts[line.caller]]

    def register(self, cell: Cell, selector: str, channel: str, key: str) -> None:
        """A key that is new is drawn from here on. That of a channel that was closed meanwhile is cancelled already."""
        if (selector, key) not in self.keys:
            part = Part(VALID, Ink.LIVE, cell.middle)
            if channel in self.closed:
                part = Part(CANCELLED, Ink.CLOSE, cell.middle)
                self.arrows.append(Arrow(Ink.CLOSE, self.closed[channel], cell))
            self.keys[selector, key] = Strip(key, selector, channel, [part], self.keys_end)

    def cancel(self, cell: Cell, keys: Iterable[Strip]) -> None:
        for key in keys:
            if key.state == VALID:
                key.parts.append(Part(CANCELLED, Ink.CLOSE, cell.middle))
                self.arrows.append(Arrow(Ink.CLOSE, cell, key))

    def remove_cancelled(self, cell: Cell, selector: str, at: float) -> None:
        for key in self.keys.values():
            if key.selector == selector and key.state == CANCELLED:
                self.end_strip(key, cell, at, REMOVED)

    def end_strip(self, strip: Strip, cell: Cell, at: float, ending: str) -> None:
        if not strip.ending and cell.first < self.keys_end:
            strip.end, strip.ended_by, strip.ending = at, cell, ending

    def end_selection(self, cell: Cell, selector: str, why: str) -> None:
        """The bar ends, with an arrow from each line that ended it. The end uses the selector's wakeups up."""
        bar = self.selecting.pop(selector)
        bar.last = cell.last + 1
        if why == "woken":
            self.arrows += [Arrow(Ink.WAKE, it, bar) for it in self.wakeups[selector]]
        elif why == "interrupted":
            self.arrows += [Arrow(Ink.WAKE, it, bar) for it in self.interrupts[bar.caller]]
        elif why == "closed" and selector in self.closed:
            self.arrows.append(Arrow(Ink.CLOSE, self.closed[selector], bar))
        self.wakeups[selector].clear()

    def start(self, cell: Cell, channel: str, number: str, is_empty: bool) -> None:
        at_once = is_empty or channel in self.closed
        part = Part(COMPLETED, Ink.CALL, cell.middle) if at_once else Part(PENDING, Ink.LIVE, cell.middle)
        self.operations[number] = Strip(f"op {number}", "", channel, [part], inf)

    def complete(self, cell: Cell, operation: Strip) -> None:
        operation.parts.append(Part(COMPLETED, Ink.CALL, cell.middle))

    def close_operations(self, cell: Cell, operations: Iterable[Strip]) -> None:
        for operation in operations:
            if operation.state == PENDING:
                self.complete(cell, operation)
                self.arrows.append(Arrow(Ink.CLOSE, cell, operation))


def deadline_of(limit: list[str]) -> float:
    """When an operation times out that began at the first of these moments, and may take as long as the second."""
    return int(limit[0]) + int(limit[1]) if limit and limit[1] != "0" else inf


def select_label(mode: list[str]) -> str:
    """Java's call of a selection with these last words."""
    return SELECT_LABELS.get(mode[0]) or f"select({mode[-1]})"


# ---- drawing ----

WIDTH = 900
EDGE = 16
SIZE = 12
LETTER = 7.25
LINE = 15
# the words of a cell stand in lines of about so many letters
CALL_ROOM, REPLY_ROOM, LONGEST = 9, 10, 24
CELL_EDGE = 5
MOST_STRETCH = 5.0
LANE_EDGE = 7
GAP, ROW_GAP = 26, 16
LABEL_LINE = 14
STRIP, STRIP_GAP = 22, 8
ENDING_ROOM = 60
ARROW_RISE = 10
MONO = "'DejaVu Sans Mono', Menlo, Consolas, 'Liberation Mono', monospace"
SANS = "'DejaVu Sans', 'Segoe UI', Helvetica, Arial, sans-serif"
BLACK, GREY, PALE, GROUND, WHITE = "#1f2328", "#6e7781", "#d0d7de", "#f6f8fa", "#ffffff"
SANS_LETTER = 6.1
CAPTION_ROOM = 128
# calls that only prepare
QUIET = ("selector", "channel", "blocking", "pipe", "gopen", "gbind")


def folded(text: str, room: int) -> list[str]:
    """The words of the text in lines of this many letters, a longer word alone; a very long one is cut."""
    words = [it if len(it) <= LONGEST else f"{it[:LONGEST - 1]}…" for it in text.split(" ")]
    return textwrap.wrap(" ".join(words), room, break_long_words=False, break_on_hyphens=text.startswith("→"))


def call_lines(cell: Cell) -> list[str]:
    return folded(" ".join(cell.line.words), CALL_ROOM)


def reply_lines(cell: Cell) -> list[str]:
    """The reply, which begins with an arrow that stands with its first word."""
    return folded(f"→\u00a0{cell.line.reply}", REPLY_ROOM)


class Canvas:
    """The elements of a picture, as they are drawn."""

    def __init__(self) -> None:
        self.elements: list[str] = []

    def add(self, name: str, text: str = "", **attributes: object) -> None:
        """An element; an attribute's name has `_` for `-`, and none at its end."""
        said = [f'{it.rstrip("_").replace("_", "-")}="{shown(value)}"' for it, value in attributes.items()]
        self.elements.append(f"<{' '.join([name, *said])}" + (f">{escape(text)}</{name}>" if text else "/>"))

    def text(self, x: float, y: float, text: str, **attributes: object) -> None:
        self.add("text", text, x=x, y=y, **attributes)

    def path(self, *parts: object, **attributes: object) -> None:
        """A path of letters and numbers."""
        self.add("path", d=" ".join(shown(it) for it in parts), **{"fill": "none", **attributes})

    def box(self, x: float, y: float, width: float, height: float, **attributes: object) -> None:
        self.add("rect", x=x, y=y, width=width, height=height, **attributes)


def shown(value: object) -> str:
    """A value as it stands in an attribute: a number with one decimal at most."""
    return f"{value:.1f}".removesuffix(".0") if isinstance(value, float) else escape(str(value), {'"': "&quot;"})


Point = tuple[float, float]


@dataclass
class Lane:
    """A caller's lane: where it lies, and how much of it is for the labels of bars."""

    top: float
    height: float
    label: float

    @property
    def bottom(self) -> float:
        return self.top + self.height

    @property
    def words(self) -> float:
        """Where the words of its cells begin."""
        return self.top + LANE_EDGE + self.label


class Row:
    """Some columns of a text, beside each other."""

    def __init__(self, story: Story, widths: list[float], columns: range, most_stretch: float) -> None:
        self.story, self.first, self.last = story, columns.start, columns.stop
        self.cells = [it for it in story.cells if it.first < self.last and it.last >= self.first]
        self.bars = [it for it in story.bars if it.first < self.last and it.last > self.first]
        self.strips = [it for it in story.strips if it.parts[0].begin < self.last and it.end > self.first]
        self.left = EDGE + label_width(story)
        ends_late = any(self.last - 0.5 <= it.end <= self.last for it in self.strips if it.ending)
        room = WIDTH - EDGE - (ENDING_ROOM if ends_late else 0) - self.left
        own = [widths[it] for it in columns]
        self.stretch = min(most_stretch, room / sum(own))
        self.edges = [self.left + self.stretch * it for it in accumulate(own, initial=0.0)]

    def x(self, at: float) -> float:
        """Where a column and a part of it are: at an edge where they aren't in this row."""
        at = min(max(at, self.first), self.last) - self.first
        column = min(int(at), self.last - self.first - 1)
        return self.edges[column] + (at - column) * (self.edges[column + 1] - self.edges[column])

    def has(self, column: int) -> bool:
        return self.first <= column < self.last

    def draw(self, canvas: Canvas, top: float) -> float:
        """Draws it below this line, and answers the line below it."""
        self.lay_out(top + LABEL_LINE)
        self.draw_grounds(canvas)
        self.draw_columns(canvas, top)
        for strip in self.strips:
            self.draw_ending(canvas, strip)
        for bar in self.bars:
            self.draw_bar(canvas, bar)
        for strip in self.strips:
            self.draw_strip(canvas, strip)
        for cell in self.cells:
            self.draw_cell(canvas, cell)
        for arrow in self.story.arrows:
            self.draw_arrow(canvas, arrow)
        return self.bottom

    def lay_out(self, top: float) -> None:
        """Places the lanes of the callers and of the keys."""
        callers = {it.line.caller for it in self.cells} | {it.caller for it in self.bars}
        self.lanes: dict[str, Lane] = {}
        for caller in sorted(callers, key=number_of):
            label = LABEL_LINE if any(it.caller == caller and it.label for it in self.bars) else 0
            cells = [it for it in self.cells if it.line.caller == caller]
            most = max((len(call_lines(it)) + len(reply_lines(it)) for it in cells), default=1)
            self.lanes[caller] = Lane(top, label + most * LINE + 2 * LANE_EDGE, label)
            top = self.lanes[caller].bottom + GAP
        self.strip_tops = {strip: top + at * (STRIP + STRIP_GAP) for at, strip in enumerate(self.strips)}
        self.bottom = top + len(self.strips) * (STRIP + STRIP_GAP) - STRIP_GAP if self.strips else top - GAP

    def draw_grounds(self, canvas: Canvas) -> None:
        for caller, lane in self.lanes.items():
            canvas.box(self.left, lane.top, self.edges[-1] - self.left, lane.height, fill=GROUND, rx=4)
            canvas.text(EDGE, lane.top + lane.height / 2 + 4, caller, class_="name")

    def draw_columns(self, canvas: Canvas, top: float) -> None:
        """The numbers of lines above their columns, and the line of `go`."""
        for cell in self.cells:
            if not cell.line.behind_go:
                canvas.text(self.x(cell.middle), top + LABEL_LINE - 4, str(cell.first + 1), class_="number")
        if self.story.go is not None and self.has(self.story.go):
            x = self.x(self.story.go)
            canvas.path("M", x, top, "V", self.bottom, stroke=GREY, stroke_dasharray="2 3")
            note = "go, and then one order that has these replies" if self.story.is_ordered else "go"
            canvas.text(x + 4, top + LABEL_LINE - 4, note, class_="number", style="text-anchor:start")

    def draw_bar(self, canvas: Canvas, bar: Bar) -> None:
        """The bar, open where it goes on beyond the row."""
        lane, inset = self.lanes[bar.caller], 2.0 + 3 * min(bar.depth, 2)
        begins, ends = bar.first >= self.first, bar.last <= self.last
        left, right = self.x(bar.first) + inset * begins, self.x(bar.last) - inset * ends
        top, bottom = lane.top + inset, lane.bottom - inset
        canvas.box(left, top, right - left, bottom - top, fill=bar.ink.ground)
        ends_at = [("M", left, bottom, "V", top)] * begins + [("M", right, bottom, "V", top)] * ends
        sides = [("M", left, top, "H", right), ("M", left, bottom, "H", right), *ends_at]
        canvas.path(*chain(*sides), stroke=bar.ink.line, stroke_width=1.5, stroke_linecap="round")
        if bar.label and begins:
            x = self.x(bar.first + 0.5) + 8 if bar.ink is Ink.CLOSE else left + 7
            canvas.text(x, lane.top + LANE_EDGE + 8, bar.label, class_="label", fill=bar.ink.line)

    def draw_strip(self, canvas: Canvas, strip: Strip) -> None:
        top = self.strip_tops[strip]
        canvas.text(EDGE, top + 10, strip_name(self.story, strip), class_="name")
        canvas.text(EDGE, top + 21, f"of {strip.channel}", class_="note", fill=GREY)
        ends = [it.begin for it in strip.parts[1:]] + [strip.end]
        for part, end in zip(strip.parts, ends):
            self.draw_part(canvas, part, end, top)
        if strip.ending and self.first <= strip.end <= self.last:
            x, y = self.x(strip.end), top + STRIP / 2
            canvas.path("M", x - 5, y - 5, "l 10 10 m 0 -10 l -10 10", stroke=BLACK, stroke_width=2)
            canvas.text(x + 9, y + 4, strip.ending, class_="part", fill=BLACK)

    def draw_part(self, canvas: Canvas, part: Part, end: float, top: float) -> None:
        """As much of it as is in this row, and its name where that has room."""
        left, right, name_width = self.x(part.begin), self.x(end), SANS_LETTER * len(part.name) + 4
        if right <= left:
            return
        fill = "url(#hatched)" if part.ink is Ink.CLOSE else part.ink.ground
        canvas.box(left, top, right - left, STRIP, fill=fill, stroke=part.ink.line)
        if right - left > name_width + 8:
            canvas.box(left + 4, top + 4, name_width, STRIP - 8, fill=WHITE, fill_opacity=0.85, rx=3)
            canvas.text(left + 6, top + STRIP / 2 + 4, part.name, class_="part", fill=part.ink.line)

    def draw_ending(self, canvas: Canvas, strip: Strip) -> None:
        """A dotted line from the line that ends the key or operation to its end."""
        if strip.ended_by and self.has(strip.ended_by.last):
            lane, x = self.lanes[strip.ended_by.line.caller], self.x(strip.end)
            canvas.path("M", x, lane.bottom, "V", self.strip_tops[strip], stroke=BLACK, stroke_dasharray="1.5 3")

    def draw_cell(self, canvas: Canvas, cell: Cell) -> None:
        """The call and its reply; on a ground of its own where arrows lead from it."""
        inks = [it.ink for it in self.story.arrows if it.source is cell]
        if inks and self.has(cell.last):
            left, top, right, bottom = self.box_of(cell)
            canvas.box(left, top, right - left, bottom - top, fill=inks[0].ground, stroke=inks[0].line, rx=4)
        ink = inks[0].line if inks else GREY if cell.line.call in QUIET else BLACK
        top, call = self.lanes[cell.line.caller].words, call_lines(cell)
        if self.has(cell.first):
            self.draw_words(canvas, self.x(cell.first + 0.5), top, call, fill=ink)
        if self.has(cell.last):
            below = top + LINE * len(call)
            self.draw_words(canvas, self.x(cell.middle), below, reply_lines(cell), fill=ink, font_weight=600)

    def draw_words(self, canvas: Canvas, x: float, top: float, lines: list[str], **attributes: object) -> None:
        for number, line in enumerate(lines):
            canvas.text(x, top + LINE * number + 11, line, **attributes)

    def box_of(self, cell: Cell) -> tuple[float, float, float, float]:
        """The left, upper, right and lower edge of a cell's words."""
        top, x, lines = self.lanes[cell.line.caller].words, self.x(cell.middle), [*call_lines(cell), *reply_lines(cell)]
        half = max(map(len, lines)) * LETTER / 2 + 4
        return x - half, top - 3, x + half, top + LINE * len(lines) + 2

    def draw_arrow(self, canvas: Canvas, arrow: Arrow) -> None:
        """The arrow; what leads to another row leads to the edge here, and from the edge there."""
        start, end = self.start_of(arrow), self.end_of(arrow)
        if start and end:
            self.draw_curve(canvas, arrow, start, end)
        elif start:
            y = start[1] + (-ARROW_RISE if arrow.is_up else ARROW_RISE)
            self.draw_curve(canvas, arrow, start, (self.edges[-1], y), marker_end="none")
        elif end and not isinstance(arrow.target, Strip):
            y = end[1] + (ARROW_RISE if arrow.ends_upwards else -ARROW_RISE)
            self.draw_curve(canvas, arrow, (self.left, y), end)

    def draw_curve(self, canvas: Canvas, arrow: Arrow, start: Point, end: Point, **attributes: object) -> None:
        """A line that leaves and arrives upright, with a head."""
        (x, y), (to_x, to_y) = start, end
        bend = max(18.0, abs(to_y - y) * 0.7)
        begins, ends = y + bend * (-1 if arrow.is_up else 1), to_y + bend * (1 if arrow.ends_upwards else -1)
        parts = ("V", to_y) if x == to_x else ("C", x, begins, to_x, ends, to_x, to_y)
        look = {"stroke": arrow.ink.line, "stroke_width": 1.8, "marker_end": f"url(#{arrow.ink.name.lower()})"}
        canvas.path("M", x, y, *parts, **{**look, **attributes})

    def start_of(self, arrow: Arrow) -> Point | None:
        """Where the arrow leaves, if in this row."""
        if not self.has(arrow.source.last):
            return None
        _, upper, _, lower = self.box_of(arrow.source)
        return self.x(arrow.source.middle), upper if arrow.is_up else lower

    def end_of(self, arrow: Arrow) -> Point | None:
        """Where the arrow's head is, if in this row: at a bar or a call in progress just above or below the source."""
        target, x = arrow.target, self.x(arrow.source.middle)
        if isinstance(target, Strip):
            return (x, self.strip_tops[target]) if target in self.strips else None
        lane = self.lanes.get(caller_of(target))
        is_beside = target.first <= arrow.source.middle < end_column(target)
        if not lane or not self.has(arrow.source.last if is_beside else int(target.first)):
            return None
        y = lane.bottom - 2 if arrow.ends_upwards else lane.top + 2
        if is_beside:
            return x, y
        if isinstance(target, Bar):
            return self.x(target.first) + EDGE, y
        _, upper, _, lower = self.box_of(target)
        return self.x(target.middle), lower if arrow.ends_upwards else upper


def strip_name(story: Story, strip: Strip) -> str:
    """The key's name, with its selector's where there are several."""
    many = len({it.selector for it in story.keys.values()}) > 1
    return f"{strip.selector} {strip.name}" if many else strip.name


def label_width(story: Story) -> float:
    names = [it.line.caller for it in story.cells] + [strip_name(story, it) for it in story.strips]
    return max([*map(len, names), 5]) * LETTER + 8


def column_widths(cells: Iterable[Cell]) -> list[float]:
    letters: dict[int, int] = defaultdict(int)
    for cell in cells:
        letters[cell.first] = max(letters[cell.first], *map(len, call_lines(cell)))
        letters[cell.last] = max(letters[cell.last], *map(len, reply_lines(cell)))
    return [max(letters[it], 3) * LETTER + 2 * CELL_EDGE for it in range(max(letters, default=-1) + 1)]


def rows_of(story: Story, columns: range) -> Iterator[Row]:
    """These columns, in as many rows as they need."""
    widths, room, stretch = column_widths(story.cells), WIDTH - 2 * EDGE - label_width(story), MOST_STRETCH
    begin, used = columns.start, 0.0
    for column in columns:
        if used and used + widths[column] > room:
            row = Row(story, widths, range(begin, column), stretch)
            yield row
            begin, used, stretch = column, 0.0, row.stretch
        used += widths[column]
    if begin < columns.stop:
        yield Row(story, widths, range(begin, columns.stop), stretch)


STYLE = f"""text{{font:{SIZE}px {MONO};text-anchor:middle}}
.title{{font:bold 16px {SANS};text-anchor:start}}
.caption{{font:13px {SANS};text-anchor:start}}
.heading{{font:bold 13px {SANS};text-anchor:start}}
.name,.label{{font-weight:bold;text-anchor:start}}
.note{{font-size:10px;text-anchor:start}}
.part{{font:11px {SANS};text-anchor:start}}
.number{{font-size:10px;fill:{GREY}}}"""


def arrow_head(ink: Ink) -> str:
    head = f'<path d="M0 0L8 4L0 8z" fill="{ink.line}"/>'
    place = 'viewBox="0 0 8 8" refX="7.5" refY="4" markerWidth="5" markerHeight="5" orient="auto"'
    return f'<marker id="{ink.name.lower()}" {place}>{head}</marker>'


def hatch(ink: Ink) -> str:
    ground = f'<rect width="6" height="6" fill="{ink.ground}"/>'
    lines = f'<path d="M0 6L6 0M-1 1L1 -1M5 7L7 5" stroke="{ink.line}"/>'
    return f'<pattern id="hatched" width="6" height="6" patternUnits="userSpaceOnUse">{ground}{lines}</pattern>'


def as_svg(title: str, canvas: Canvas, height: float) -> str:
    size = f'width="{WIDTH}" height="{height:.0f}" viewBox="0 0 {WIDTH} {height:.0f}"'
    frame = f'x="0.5" y="0.5" width="{WIDTH - 1}" height="{height - 1:.0f}" rx="6" fill="{WHITE}" stroke="{PALE}"'
    head = [
        f'<svg xmlns="http://www.w3.org/2000/svg" {size} role="img">',
        f"<title>{escape(title)}</title>",
        f"<style>{STYLE}</style>",
        f"<defs>{arrow_head(Ink.CLOSE)}{arrow_head(Ink.WAKE)}{hatch(Ink.CLOSE)}</defs>",
        f"<rect {frame}/>",
    ]
    return "\n".join([*head, *canvas.elements, "</svg>"]) + "\n"


# ---- pictures ----


def read(path: str) -> str:
    with open(os.path.join(TOP, path), encoding="utf-8") as file:
        return file.read()


def caption_of(path: str) -> str:
    """The comment with which the script or the race text of an output begins."""
    for ending in (".nio", ".race", ".timed"):
        script = os.path.splitext(path)[0] + ending
        if os.path.exists(os.path.join(TOP, script)):
            comment = takewhile(lambda it: it.startswith("#"), read(script).splitlines())
            return " ".join(it.removeprefix("#").strip() for it in comment)
    return ""


def draw(picture: Picture, texts: Iterable[str]) -> str:
    """The picture, of the texts of its panels."""
    canvas, y, said = Canvas(), EDGE + 14.0, ""
    canvas.text(EDGE, y, picture.title, class_="title", fill=BLACK)
    y += 6
    for panel, text in zip(picture.panels, texts, strict=True):
        caption = caption_of(panel.path)
        if caption != said:
            for line in textwrap.wrap(caption, CAPTION_ROOM):
                y += 17
                canvas.text(EDGE, y, line, class_="caption", fill=BLACK)
            said = caption
        if panel.heading:
            y += 24
            canvas.text(EDGE, y, panel.heading, class_="heading", fill=BLACK)
        y = draw_panel(canvas, panel, text, y + 12)
    return as_svg(picture.title, canvas, y)


def draw_panel(canvas: Canvas, panel: Panel, text: str, y: float) -> float:
    """Draws the panel below this line, and answers the line below it."""
    lines = parse(text)
    cells = in_order(lines, panel.order) if panel.order else in_columns(lines)
    story = Story(cells, is_ordered=bool(panel.order))
    for row in rows_of(story, range(panel.first - 1, min(story.end, panel.last or story.end))):
        y = row.draw(canvas, y) + ROW_GAP
    return y


def draw_all() -> dict[str, str]:
    """Each picture, by its path."""
    return {
        f"{FOLDER}/{name}.svg": draw(picture, [read(it.path) for it in picture.panels])
        for name, picture in PICTURES.items()
    }


def differences(pictures: dict[str, str]) -> Iterator[str]:
    """What `--check` finds."""
    pages = {page: read(page) for page in PAGES}
    found = {os.path.relpath(it, TOP) for it in glob.glob(f"{TOP}/{FOLDER}/*")}
    for path, picture in pictures.items():
        if path not in found or read(path) != picture:
            yield f"{path} isn't what its texts say: run bench/draw.py --all"
        if not any(os.path.relpath(path, os.path.dirname(page) or ".") in text for page, text in pages.items()):
            yield f"{path} is on none of {', '.join(PAGES)}"
    for path in sorted(found - pictures.keys()):
        yield f"{path} is none of PICTURES"


def draw_text(path: str | None) -> str:
    """The picture of this text, or of standard input."""
    text = sys.stdin.read() if path is None else read(os.path.abspath(path))
    return draw(Picture(path or "standard input", (Panel(os.path.abspath(path or "-")),)), [text])


def write_all() -> int:
    os.makedirs(f"{TOP}/{FOLDER}", exist_ok=True)
    for path, picture in draw_all().items():
        with open(f"{TOP}/{path}", "w", encoding="utf-8") as file:
            file.write(picture)
    return 0


def check() -> int:
    lost = list(differences(draw_all()))
    for it in lost:
        print(f"draw.py: {it}", file=sys.stderr)
    return 1 if lost else 0


def write_text(path: str | None) -> int:
    try:
        sys.stdout.write(draw_text(path))
    except KeyError as error:
        print(f"draw.py: no line before makes or begins {error}", file=sys.stderr)
    except (OSError, ValueError) as error:
        print(f"draw.py: {error}", file=sys.stderr)
    else:
        return 0
    return 1


def main(words: list[str]) -> int:
    match words:
        case ["--all"]:
            return write_all()
        case ["--check"]:
            return check()
        case []:
            return write_text(None)
        case [path] if not path.startswith("-"):
            return write_text(path)
    print(__doc__, file=sys.stderr)
    return 2


if __name__ == "__main__":
    sys.exit(main(sys.argv[1:]))
