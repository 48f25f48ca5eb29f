"""The picture that `chart` draws of a run (docs/use/pictures.md), to stand beside another: without its own legend, pale
where both runs are the same, and ringed where they are decided."""
from __future__ import annotations

import bisect
import re
import xml.etree.ElementTree as tree
from dataclasses import dataclass

from runs import Place, Run

SPACE = "http://www.w3.org/2000/svg"
MARK = re.compile(r"rank (\d+) at (\d+): ")
BOW = re.compile(r"M (\S+) (\S+) C .* (\S+) (\S+)")
# The legend stands left of the axis, and the names of the ranks below the heading.
LEFT, TOP = 244, 36
# How much lower than its mark the line of a label is, or more where the two would lie on another.
BELOW = 3
tree.register_namespace("", SPACE)
Spot = tuple[str, str]


@dataclass(frozen=True)
class Picture:
    """The picture in SVG, its style and symbols, its legend (a symbol and its words), and the other words of `chart`."""

    svg: str
    style: str
    symbols: str
    legend: dict[str, str]
    said: str
    notes: list[str]


def is_of(element: tree.Element, name: str) -> bool:
    return element.tag == f"{{{SPACE}}}{name}"


def title_of(element: tree.Element) -> str:
    return element.findtext(f"{{{SPACE}}}title", "")


def ends_of(element: tree.Element) -> list[Spot]:
    """Where an arrow or a bow begins and ends."""
    if is_of(element, "line"):
        return [(element.get("x1"), element.get("y1")), (element.get("x2"), element.get("y2"))]
    bow = BOW.fullmatch(element.get("d", ""))
    return [(bow[1], bow[2]), (bow[3], bow[4])] if bow else []


class Drawn:
    """The elements of a picture, each known for what it is."""

    def __init__(self, text: str, run: Run):
        self.root = tree.fromstring(text)
        self.inner = self.root.find(f"{{{SPACE}}}g")
        self.elements = [*self.inner]
        stamps = {(rank, it.stamp): (rank, at) for rank, history in run.histories.items() for at, it in enumerate(history)}
        self.marks: list[tuple[tree.Element, Place]] = []
        for it in self.elements:
            mark = MARK.match(title_of(it)) if is_of(it, "use") else None
            if mark:
                self.marks.append((it, stamps[int(mark[1]), int(mark[2])]))
        self.lanes: dict[str, list[str]] = {}
        for mark, _ in self.marks:
            self.lanes.setdefault(mark.get("x"), []).append(mark.get("y"))
        for heights in self.lanes.values():
            heights.sort(key=float)
        self.labels = [it for it in self.elements if it.get("class") == "label"]

    def taken_out(self) -> tuple[dict[str, str], list[str], list[str]]:
        """Takes the legend, the words above it and the notes out; what they say."""
        legend, said, notes, symbol = {}, [], [], None
        for it in self.elements:
            left = float(it.get("x", LEFT))
            if left >= LEFT or it.get("class") == "axis":
                continue
            self.inner.remove(it)
            if is_of(it, "use"):
                symbol = it.get("href")
            elif it.get("class") == "note":
                notes.append(it.text)
            elif symbol:
                legend[symbol] = it.text
            else:
                said.append(it.text)
        return legend, said, notes[1:]

    def part(self, name: str) -> str:
        """Takes an element out; its text, or all of it."""
        found = self.inner.find(f"{{{SPACE}}}{name}")
        self.inner.remove(found)
        return found.text if name == "style" else "".join(tree.tostring(it, encoding="unicode") for it in found)

    def pale(self, same: dict[int, int]) -> None:
        """Marks the beginning of each rank's history, and the arrows and bows between such events."""
        is_same = [at < same.get(rank, 0) for _, (rank, at) in self.marks]
        spots = set()
        for (mark, _), it in zip(self.marks, is_same):
            if it:
                mark.set("class", "same")
                spots.add((mark.get("x"), mark.get("y")))
        for label in self.labels:
            if self.spot_beside(label) in spots:
                label.set("class", "label same")
        for it in self.elements:
            ends = ends_of(it) if title_of(it) else []
            if ends and spots.issuperset(ends):
                it.set("class", f"{it.get('class')} same")

    def spot_beside(self, label: tree.Element) -> Spot:
        """The mark that a label stands right of: the nearest in height on the next line to the left."""
        left, height = float(label.get("x")), float(label.get("y")) - BELOW
        lane = max((it for it in self.lanes if float(it) < left), key=float)
        at = bisect.bisect(self.lanes[lane], height, key=float)
        return lane, min(self.lanes[lane][max(at - 1, 0):at + 1], key=lambda it: abs(float(it) - height))

    def ring(self, decided: list[Place]) -> None:
        for mark, place in self.marks:
            if place in decided:
                around = {"class": "decides", "cx": mark.get("x"), "cy": mark.get("y"), "r": "10"}
                tree.SubElement(self.inner, f"{{{SPACE}}}circle", around)

    def cropped(self, name: str) -> str:
        width, height = int(self.root.get("width")) - LEFT, int(self.root.get("height")) - TOP
        bottom = max((float(it.get("y", it.get("y2", 0))) for it in self.inner), default=0)
        height = min(height, int(bottom) + 14 - TOP)
        self.root.set("viewBox", f"{LEFT} {TOP} {width} {height}")
        self.root.set("style", f"width: {width}px; min-width: {width * 45 // 100}px")
        self.root.set("role", "img")
        self.root.set("aria-label", name)
        for it in ("width", "height"):
            self.root.attrib.pop(it)
        return tree.tostring(self.root, encoding="unicode")


def picture_of(name: str, text: str, run: Run, same: dict[int, int], decided: list[Place]) -> Picture:
    drawn = Drawn(text, run)
    style, symbols = drawn.part("style"), drawn.part("defs")
    legend, said, notes = drawn.taken_out()
    drawn.pale(same)
    drawn.ring(decided)
    return Picture(drawn.cropped(name), style, symbols, legend, " ".join(said), notes)
