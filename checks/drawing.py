"""Pages as `bendrika page` writes them: the strips, the cells of each, and what each row of a cell shows.

Each element of a strip belongs to one row; what belongs to none is a fault. No text lies over another or outside of its strip,
and nothing is loaded from elsewhere."""

import html.parser
import re
import xml.etree.ElementTree
from typing import NamedTuple
from xml.etree.ElementTree import Element

from waveform import need

# Widths of a letter of 12 px: in the font of texts, and in that of names and headings.
LETTER, NAME_LETTER = 7.23, 6.7
SANS = ("n", "q", "w")
CELLS, CELL, NAMES, LEAST = 10, 104, 92, 500
# The rows of the bus by their names, in order, and how far apart they are.
BUS = ["AM A31-A01", "WRITE*", "LWORD*", "AS*", "DS1*", "DS0*", "D31-D00", "DTACK*", "BERR*"]
ROW, BAR, PORT = 24, 14, 48
# How far below the top of a row its text, and below that of an access its three texts.
BASE, PORT_TEXTS = 11, (13, 28, 43)
SLOPES = {"": 0, "l4 14": 14, "l4 -14": -14}
VOID = {"meta"}
LEVEL = re.compile(r"M(\d+) (\d+)(l4 -?14)?H(\d+)")
BOX = re.compile(r"M(\d+) (\d+)(l-3 7l3 7|m0 14)H(\d+)(l3 -7l-3 -7|m0 -14)H(\d+)")


class Page(html.parser.HTMLParser):
    """The elements of a page, which must be closed in order, and the text of each kind of them."""

    def __init__(self, text: str) -> None:
        super().__init__()
        self.open: list[str] = []
        self.parts: dict[str, str] = {}
        need(text.startswith("<!DOCTYPE html>\n") and text.endswith("</html>\n"), "the page is no whole page")
        self.feed(text)
        self.close()
        need(not self.open, f"{self.open} are not closed")
        self.strips = [Strip(one) for one in re.findall(r"<svg.*?</svg>", text, re.DOTALL)]

    def handle_starttag(self, tag: str, attrs: list) -> None:
        need(tag not in ("script", "img", "link", "iframe"), f"a <{tag}>")
        need(not any(name in ("src", "href", "onload") for name, _ in attrs), f"{tag} loads something")
        if tag not in VOID:
            self.open.append(tag)

    def handle_startendtag(self, tag: str, attrs: list) -> None:
        need(tag in ("path", "rect"), f"<{tag}/>")

    def handle_endtag(self, tag: str) -> None:
        need(self.open and self.open.pop() == tag, f"</{tag}> closes another element")

    def handle_data(self, data: str) -> None:
        if self.open:
            self.parts[self.open[-1]] = self.parts.get(self.open[-1], "") + data

    def events(self) -> dict[int, list["Cell"]]:
        """The cells of each event by its number, in order. Those of one event are in one strip; polls that wait share a cell."""
        found: dict[int, list[Cell]] = {}
        for strip in self.strips:
            need(strip.cells[0].numbers, "a strip begins in an event")
            need(strip.label == f"events from {strip.cells[0].numbers[0]}", f"the label {strip.label}")
            for cell in strip.cells:
                for number in cell.numbers:
                    need(number not in found, f"event {number} twice")
                    found[number] = [cell]
                if not cell.numbers:
                    found[max(found)].append(cell)
        return found


class Part(NamedTuple):
    """A part of a row: the place from which it is drawn, how, and what it shows."""

    x: int
    kind: str
    value: str


class Access(NamedTuple):
    """What a cell shows of an access by a local port: its frame, the slot and the way, the offset, and the bytes or the error."""

    frame: str
    first: str
    offset: str
    second: tuple[str, str] | None


class Cell:
    """A cell: its heading, and its rows."""

    def __init__(self, group: Element, column: int, strip: "Strip") -> None:
        need(group.get("transform") == f"translate({NAMES + CELL * column} 0)", f"a cell at {group.get('transform')}")
        self.leads, self.left = column == 0, list(group)
        sides = self.take(lambda one: one.tag == "path" and one.get("class") == "g")
        need([it.get("d") for it in sides] == [f"M0 0V{strip.height}"], "the side of a cell")
        titles = self.take(lambda one: one.tag == "title" and not one.attrib)
        need(len(titles) <= 1, "two titles")
        self.title = (titles[0].text or "") if titles else None
        number, self.line = self.text("e", 52, 14), self.text("s", 52, 29)
        first, _, last = (number or "1-0").partition("-")
        self.numbers = range(int(first), int(last or first) + 1)
        self.what = self.text("w", 52, 44)
        self.bars = {slot: self.bar(top) for slot, top in strip.bars.items()}
        self.strip = strip
        self.upper = self.lanes(strip.tops["AM A31-A01"])
        self.address = self.address_at(strip.tops["AM A31-A01"])
        self.data = self.row(strip.tops["D31-D00"], self.lanes(strip.tops["D31-D00"]))
        self.levels = {name: self.level(strip.tops[name]) for name in BUS if name not in ("AM A31-A01", "D31-D00")}
        self.access = self.access_at(strip.local) if strip.local is not None else None
        need(not self.left, f"event {number}: no row has {[(it.tag, it.attrib, it.text) for it in self.left]}")

    def take(self, holds) -> list[Element]:
        """Takes those elements of the cell that are left."""
        taken = [it for it in self.left if holds(it)]
        self.left = [it for it in self.left if not holds(it)]
        return taken

    def text(self, kind: str, x: int, y: int) -> str | None:
        """The text of this class at this place, if there is one."""
        found = self.take(lambda it: it.tag == "text" and it.attrib == {"class": kind, "x": str(x), "y": str(y)})
        need(len(found) <= 1, f"two texts at {x} {y}")
        return (found[0].text or "") if found else None

    def paths(self, kinds: str, pattern: re.Pattern, tops: range) -> list[tuple[str, re.Match]]:
        """The class of each path of a row, and its parts."""

        def match(one: Element) -> re.Match | None:
            found = pattern.fullmatch(one.get("d", "")) if one.tag == "path" and one.get("class") in kinds else None
            return found if found and int(found[2]) in tops else None

        return [(it.get("class"), match(it)) for it in self.take(match)]

    def dots(self, top: int) -> list[tuple[int, int]]:
        """From where to where a row has dots."""
        return [(int(it[1]), int(it[4])) for _, it in self.paths("z", LEVEL, range(top + 7, top + 8))]

    def boxes(self, kind: str, top: int) -> list[tuple[int, int]]:
        """From where to where a row has boxes: open at the sides of the cell, else with a corner."""
        found = []
        for _, it in self.paths(kind, BOX, range(top, top + 1)):
            begins, ends = it[3] != "m0 14", it[5] != "m0 -14"
            from_, to = int(it[1]) - 3 * begins, int(it[4]) + 3 * ends
            need(it[1] == it[6] and begins == (from_ > 0) and ends == (to < CELL), f"the box {it[0]}")
            found.append((from_, to))
        return found

    def rectangles(self, kinds: tuple, top: int, height: int) -> list[tuple[str, int, int]]:
        """The class of each rectangle of a row, and from where to where it is."""
        at = {"y": str(top), "height": str(height)}
        found = self.take(lambda it: it.tag == "rect" and it.get("class") in kinds and at.items() <= it.attrib.items())
        return [(it.get("class"), int(it.get("x")), int(it.get("x")) + int(it.get("width"))) for it in found]

    def row(self, top: int, shown: list[tuple[int, int, Part]]) -> list[Part]:
        """The parts of a row, which fill it from left to right, with the dots between them."""
        parts, end = [], 0
        for from_, to, part in sorted(shown + [(x, to, Part(x, "z", "z")) for x, to in self.dots(top)]):
            need(from_ == end, f"a part of a row begins at {from_} and not at {end}")
            parts.append(part)
            end = to
        need(end == CELL, f"a row ends at {end}")
        return parts

    def lanes(self, top: int) -> list[tuple[int, int, Part]]:
        """The boxes of data lanes."""
        found = []
        for from_, to in self.boxes("v", top):
            found.append((from_, to, Part(from_, "v", self.text("t", (from_ + to) // 2, top + BASE) or "no text")))
        return found

    def address_at(self, top: int) -> list[Part]:
        """The row of the address: boxes, some with a text."""
        found = []
        for from_, to in self.boxes("u", top):
            found.append((from_, to, Part(from_, "u", self.text("t", (from_ + to) // 2, top + BASE) or "")))
        return self.row(top, found)

    def level(self, top: int) -> list[Part]:
        """The row of one line: each level with the slope that leads to it."""
        found, depths = [], {}
        for kind, it in self.paths("lx", LEVEL, range(top, top + 15)):
            depth = int(it[2]) - top + SLOPES[it[3] or ""]
            need(depth in (0, 14), f"the level {it[0]}")
            depths[int(it[1])] = int(it[2]) - top
            found.append((int(it[1]), int(it[4]), Part(int(it[1]), kind, "0" if depth else "1")))
        parts = self.row(top, found)
        for before, part in zip(parts, parts[1:]):
            if part.kind != "z":
                depth = {"0": 14, "1": 0, "z": depths[part.x]}[before.value]
                need(depths[part.x] == depth, f"no slope leads to the level at {part.x}")
        return parts

    def bar(self, top: int) -> tuple[list[tuple], list[tuple]]:
        """The row of a slot: its frames with the request line, and its solid bars with their name."""
        need(self.dots(top) == [(0, CELL)], "the dots of a bar")
        frames = [(x, to, self.text("t", (x + to) // 2, top + BASE)) for _, x, to in self.rectangles(("r",), top, BAR)]
        return frames, [(x, to, self.text("o", (x + to) // 2, top + BASE)) for _, x, to in self.rectangles(("h",), top, BAR)]

    def access_at(self, top: int) -> Access | None:
        """The row of the local accesses."""
        found = self.rectangles(("v", "v x"), top, PORT)
        need([it[1:] for it in found] in ([], [(8, 98)]), f"the frames {found}")
        if not found:
            return None
        first, offset, bytes_ = (self.text("t", 53, top + it) for it in PORT_TEXTS)
        error = self.text("b", 53, top + PORT_TEXTS[2])
        need(not (bytes_ and error), f"{bytes_} and {error}")
        third = ("t", bytes_) if bytes_ is not None else ("b", error) if error is not None else None
        return Access(found[0][0], first or "", offset or "", third)


class Strip:
    """A strip: the tops of its rows by name, and its cells."""

    def __init__(self, text: str) -> None:
        root = xml.etree.ElementTree.fromstring(text)
        self.label = root.get("aria-label")
        # The slots that were found to act in it.
        self.acting: set[int] = set()
        self.width, self.height = int(root.get("width", 0)), int(root.get("height", 0))
        groups = root.findall("g")
        need(1 <= len(groups) <= CELLS, f"{len(groups)} cells")
        need(self.width == max(NAMES + len(groups) * CELL, LEAST), f"the width {self.width}")
        need(root.get("viewBox") == f"0 0 {self.width} {self.height}", "the view is another")
        need({it.tag for it in root} <= {"text", "g"}, "a strip has other elements")
        self.read_names([(it.text or "", int(it.get("y", 0))) for it in root.findall("text")])
        self.lies_apart(root)
        self.cells = [Cell(one, i, self) for i, one in enumerate(groups)]

    def read_names(self, names: list[tuple[str, int]]) -> None:
        """Reads the names of the rows, from the top."""
        need(names[:2] == [("event", 14), ("slot:line", 29)], f"the names {names[:2]}")
        self.bars = {int(it[5:]): y - BASE for it, y in names if re.fullmatch(r"slot \d+", it)}
        waiting = [y - BASE for it, y in names if it == "waiting"]
        self.waiting = [int(slot) for it, _ in names if re.fullmatch(r"slots( \d+)+", it) for slot in it.split()[1:]]
        need(len(waiting) == bool(self.waiting), f"the slots {self.waiting} wait")
        self.local = next((y - PORT_TEXTS[0] for it, y in names if it == "local port"), None)
        self.tops = {it: y - BASE for it, y in names if it in BUS}
        local = [] if self.local is None else [self.local]
        need(len(names) == 2 + len(self.bars) + 2 * len(waiting) + len(BUS) + len(local), f"the names {names}")
        tops = list(self.bars.values()) + waiting + list(self.tops.values()) + local
        need(list(self.tops) == BUS and tops == sorted(tops), "the order of the rows")
        heights = [ROW] * (len(self.bars) + len(waiting) + len(BUS)) + [PORT] * len(local)
        need(all(top + height <= after for top, height, after in zip(tops, heights, tops[1:] + [self.height])), "a row lies in another")

    def lies_apart(self, root: Element) -> None:
        """No text lies over another, or outside of the strip, and no bar leaves its cell."""
        boxes = []
        for shift, group in [(0, root)] + [(NAMES + CELL * i, one) for i, one in enumerate(root.findall("g"))]:
            for one in group.findall("text"):
                kind = one.get("class")
                width, x = len(one.text or "") * (NAME_LETTER if kind in SANS else LETTER), int(one.get("x", 0)) + shift
                left, y = x - {"n": width, "q": 0}.get(kind, width / 2), int(one.get("y", 0))
                need(0 <= left and left + width <= self.width and 0 <= y - 10 and y <= self.height, f"{one.text} lies outside")
                boxes.append((left, left + width, y - 9, y, one.text))
            for one in group.findall("rect"):
                need(0 <= int(one.get("x", 0)) and int(one.get("x", 0)) + int(one.get("width", 0)) <= CELL, "a bar leaves its cell")
        for i, (left, right, top, base, word) in enumerate(boxes):
            for other in boxes[:i]:
                apart = right <= other[0] or other[1] <= left or base <= other[2] or other[3] <= top
                need(apart, f"{word} lies over {other[4]}")
