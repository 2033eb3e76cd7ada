"""A run as an SVG timeline: a row for each session and for the clock, a column for each line of the trace, a bar where a request waits,
and to its end a dashed line from the row whose doing ended it."""

import textwrap
from dataclasses import dataclass
from xml.sax.saxutils import escape

FONT = 12
CHARACTER = 7.25
LETTERS = 20
LINE = 15
LABELS = 92
STRIP = 26
MARK = 15
COLORS = {"at once": "#57606a", "quiet": "#57606a", "satisfied": "#1a7f37", "expired": "#bc4c00", "waits": "#0969da", "ends": "#8250df",
          "leaves": "#bf3989", "comes back": "#bf3989"}
# What a mark says in its own color.
COLORED = ("told", "ends", "leaves", "comes back")
LEGEND = [("waits", "waits"), ("satisfied", "what it waited for has come"), ("expired", "its time has run out")]


@dataclass
class Mark:
    """Something that happens in a row and a column: its color, its words, and its place among all that happens in the column."""
    kind: str
    color: str
    text: str
    asked: object = None
    place: int = 0


class Drawing:
    def __init__(self, teller):
        self.lines = [(number, line) for number, line in enumerate(teller.lines, 1) if line.kind not in ("topic", "end")]
        self.sessions = [number for number, session in enumerate(teller.broker.sessions) if session.is_named]
        self.rows = (["clock"] if any(line.kind == "clock" for _, line in self.lines) else []) + self.sessions
        self.cells, self.counts = {}, [0] * len(self.lines)
        for column, (_, line) in enumerate(self.lines):
            self.fill(column, line)
        self.lay_out()
        self.out = []

    # ---- what stands where

    def put(self, row, column, mark):
        mark.place = self.counts[column]
        self.counts[column] += 1
        self.cells.setdefault((row, column), []).append(mark)

    def fill(self, column, line):
        if line.kind == "clock":
            self.put("clock", column, Mark("clock", COLORS["at once"], f"{line.what} ms"))
        elif line.kind == "close":
            self.put(line.what, column, Mark("closes", COLORS["at once"], "closes"))
        elif not any(event.kind == "asked" and event.session == line.what[0] for event in line.events):
            self.put(line.what[0], column, Mark("sends", COLORS["at once"], f"sends {len(line.what[1])} bytes"))
        for event in line.events:
            asked = event.what
            if event.kind == "asked":
                self.put(event.session, column, Mark("asked", COLORS["waits" if asked.deadline is not None else "at once"], asked.what, asked))
            elif event.kind == "told":
                self.put(event.session, column, Mark("told", COLORS[asked.how], f"told: {asked.told}", asked))
            elif event.kind == "ends":
                self.put(event.session, column, Mark("ends", COLORS["ends"], f"ends: {asked}"))
            elif event.kind in ("leaves", "comes back"):
                row = line.kind if event.session is None else event.session
                self.put(row, column, Mark(event.kind, COLORS[event.kind], event.what))

    def lay_out(self):
        self.lefts, left = [], LABELS
        for count in self.counts:
            self.lefts.append((left, left + 8 + MARK * count))
            left += 8 + MARK * count + round(LETTERS * CHARACTER) + 14
        self.width = max(left, 780) + 6
        self.tops, top = {}, 30
        for row in self.rows:
            self.tops[row] = top
            lines = max((sum(len(wrapped(mark.text)) for mark in marks) for (at, _), marks in self.cells.items() if at == row), default=0)
            top += STRIP + LINE * lines + 12
        self.height = top + 34

    def mark_x(self, column, mark):
        return self.lefts[column][0] + 8 + MARK * mark.place

    def strip_y(self, row):
        return self.tops[row] + STRIP // 2

    # ---- drawing

    def text(self, x, y, what, color="#1f2328", weight="normal", anchor="start"):
        self.out.append(f'<text x="{x}" y="{y}" fill="{color}" font-weight="{weight}" text-anchor="{anchor}">{escape(what)}</text>')

    def grid(self):
        for column, (number, _) in enumerate(self.lines):
            left, inner = self.lefts[column]
            self.out.append(f'<path d="M{left - 4} 24V{self.height - 34}" stroke="#d0d7de"/>')
            self.text(inner, 18, f"line {number}", "#57606a")
        for row in self.rows:
            top = self.tops[row]
            self.out.append(f'<path d="M8 {top}H{self.width - 8}" stroke="#d0d7de"/>')
            self.text(8, self.strip_y(row) + 4, row if row == "clock" else f"session {row}", weight="bold")

    def bars(self):
        for (row, column), marks in self.cells.items():
            for mark in marks:
                if mark.kind == "asked" and mark.asked.deadline is not None:
                    self.bar(row, column, mark)

    def bar(self, row, column, mark):
        asked, start, y = mark.asked, self.mark_x(column, mark), self.strip_y(row)
        end_column, end = self.end_of(row, asked)
        end = self.width - 10 if end is None else self.mark_x(end_column, end)
        self.out.append(f'<rect x="{start}" y="{y - 8}" width="{end - start}" height="16" fill="#ddf4ff" stroke="{COLORS["waits"]}"/>')
        inner = self.lefts[column][1]
        if end_column != column:
            told = f"until {asked.deadline} ms"
            self.text(inner, y + 4, told if len(told) <= LETTERS else f"{asked.deadline} ms", COLORS["waits"])

    def end_of(self, row, asked):
        for (at, column), marks in self.cells.items():
            for mark in marks:
                if at == row and mark.kind == "told" and mark.asked is asked:
                    return column, mark
        return None, None

    def causes(self):
        """From the row whose doing it was to the end of each bar."""
        for (row, column), marks in self.cells.items():
            for mark in marks:
                if mark.kind == "told" and mark.asked.deadline is not None and row != mark.asked.cause:
                    self.cause(row, column, mark)

    def cause(self, row, column, mark):
        before = [other.place for other in self.cells.get((mark.asked.cause, column), []) if other.place < mark.place]
        start = self.lefts[column][0] + 8 + MARK * max(before, default=mark.place)
        x, y, end = self.mark_x(column, mark), self.strip_y(mark.asked.cause), self.strip_y(row)
        step = 13 if end > y else -13
        self.out.append(f'<path d="M{start} {y}H{x}V{end - step}" fill="none" stroke="{mark.color}" stroke-width="1.5" stroke-dasharray="4 3"/>')
        self.out.append(f'<path d="M{x} {end - step * 9 // 13}l-4 {-step // 2}h8z" fill="{mark.color}"/>')

    def marks(self):
        for (row, column), marks in self.cells.items():
            y = self.tops[row] + STRIP + LINE - 4
            for mark in marks:
                x = self.mark_x(column, mark)
                self.out.append(shape(mark.kind, x, self.strip_y(row), mark.color))
                for piece in wrapped(mark.text):
                    self.text(self.lefts[column][1], y, piece, mark.color if mark.kind in COLORED else "#1f2328")
                    y += LINE

    def legend(self):
        x, y = LABELS, self.height - 14
        for kind, told in LEGEND:
            if kind == "waits":
                self.out.append(f'<rect x="{x}" y="{y - 12}" width="26" height="14" fill="#ddf4ff" stroke="{COLORS[kind]}"/>')
            else:
                self.out.append(shape("told", x + 13, y - 5, COLORS[kind]))
            self.text(x + 34, y, told, COLORS[kind])
            x += 34 + round(len(told) * CHARACTER) + 20
        self.out.append(f'<path d="M{x} {y - 5}h26" stroke="{COLORS["at once"]}" stroke-width="1.5" stroke-dasharray="4 3"/>')
        self.text(x + 34, y, "what ended it", COLORS["at once"])

    def svg(self):
        self.grid()
        self.bars()
        self.causes()
        self.marks()
        self.legend()
        head = (f'<svg xmlns="http://www.w3.org/2000/svg" width="{self.width}" height="{self.height}" viewBox="0 0 {self.width} {self.height}" '
                f'font-family="DejaVu Sans Mono, Menlo, Consolas, monospace" font-size="{FONT}">')
        return "\n".join([head, f'<rect width="{self.width}" height="{self.height}" fill="#ffffff"/>', *self.out, "</svg>"]) + "\n"


def wrapped(told):
    return textwrap.wrap(told, LETTERS)


def shape(kind, x, y, color):
    """A circle where something is asked, a full one where something is told, a square where a session ends, and a diamond where a follower
    leaves an in-sync set, which is full where one comes back."""
    if kind == "ends":
        return f'<rect x="{x - 5}" y="{y - 5}" width="10" height="10" fill="{color}"/>'
    if kind in ("leaves", "comes back"):
        fill = color if kind == "comes back" else "#ffffff"
        return f'<path d="M{x} {y - 6}l6 6l-6 6l-6 -6z" fill="{fill}" stroke="{color}" stroke-width="2"/>'
    fill = color if kind == "told" else "#ffffff"
    return f'<circle cx="{x}" cy="{y}" r="5" fill="{fill}" stroke="{color}" stroke-width="2"/>'


def drawn(teller):
    return Drawing(teller).svg()
