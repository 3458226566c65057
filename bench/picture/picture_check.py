"""Checks a picture of a trace against the trace: what the program `trace_picture` has written.

    python3 picture_check.py TRACE SVG [FIRST LAST]

Prints each fault that is found, then how many; the status is 1 if there is one. It shares no code with the program: it reads the SVG's
coordinates and the trace's words, and judges by them."""

import re
import sys
import xml.etree.ElementTree as ET

CHAR, UP, DOWN, HALF = 7, 10, 3, 7          # a text's box: its width for each character, above and below its base line; half a row
SPACE = "{http://www.w3.org/2000/svg}"


def box_of(text):
    x, y = int(text.get("x")), int(text.get("y"))
    return x, y - UP, x + CHAR * len(text.text or ""), y + DOWN


def points_of(path):
    """The points that the path's first stroke goes through: M, L, H and V with whole numbers."""
    points, x, y = [], 0, 0
    for letter, rest in re.findall(r"([A-Z])([^A-Z]*)", path.get("d")):
        numbers = [int(n) for n in rest.split()]
        if letter == "M" and points:
            break
        x = numbers[0] if letter in "MLH" else x
        y = numbers[-1] if letter in "MLV" else y
        points.append((x, y))
    return points


class Check:
    def __init__(self, lines, svg, first, last):
        self.faults, self.first, self.last, self.lines = [], first, last, lines
        self.words = {at: re.findall(r'"[^"]*"|[^ ]+', line) for at, line in enumerate(lines, 1)}
        self.root = ET.fromstring(svg)
        self.lanes = {int(r.get("data-kernel")): (int(r.get("x")), int(r.get("x")) + int(r.get("width")))
                      for r in self.root.iter(SPACE + "rect") if r.get("class") == "lane"}
        self.groups = [g for g in self.root.iter(SPACE + "g") if g.get("class") == "rec"]
        self.rows, self.circles = {}, {(int(c.get("cx")), int(c.get("cy"))) for c in self.root.iter(SPACE + "circle")}

    def fault(self, holds, text):
        if not holds:
            self.faults.append(text)

    def inside(self, at):
        return self.first <= at <= self.last

    def kernel(self, at):
        return int(self.words[at][0])

    def records(self):
        """Each record of the range is drawn once, in its order, with its line, in its kernel's lane and its row."""
        wanted = [f"r{at}" for at in range(self.first, self.last + 1)]
        self.fault([g.get("id") for g in self.groups] == wanted, "the records drawn aren't those of the range, each once and in order")
        entries = 0
        for at in range(1, self.first):
            entries += self.words[at][1] == "Enter"
        for group in self.groups:
            at = int(group.get("id")[1:])
            if not self.inside(at):
                continue
            line, texts = self.lines[at - 1], {t.get("class").split()[0]: t for t in group.iter(SPACE + "text")}
            shown = line if len(line) <= 300 else f"{line[:300]} .. ({len(line)} bytes)"
            self.fault(group.find(SPACE + "title").text == f"{at}: {shown}", f"record {at}: another title")
            self.fault(texts["number"].text == str(at), f"record {at}: another number")
            self.rows[at] = int(texts["number"].get("y")) - 4
            self.fault(self.rows[at] > self.rows.get(at - 1, 0), f"record {at}: its row isn't below the last")
            left, _, right, _ = box_of(texts["label"])
            lane = self.lanes[self.kernel(at)]
            self.fault(lane[0] <= left and right <= lane[1], f"record {at}: its label leaves its lane")
            for mark in group:
                for y in [int(mark.get("cy"))] if mark.get("cy") else [y for _, y in points_of(mark)] if mark.get("d") else []:
                    self.fault(abs(y - self.rows[at]) <= HALF, f"record {at}: a mark leaves its row")
            self.fault("entry" in texts if self.words[at][1] == "Enter" else "entry" not in texts, f"record {at}: an entry too few or too many")
            if self.words[at][1] == "Enter":
                entries += 1
                self.fault((texts["entry"].text or "").split()[:2] == [str(entries), self.words[at][2]], f"record {at}: another entry")
                self.fault(box_of(texts["entry"])[2] <= min(x for x, _ in self.lanes.values()), f"record {at}: its entry reaches into a lane")

    def texts(self):
        """All texts stand within the picture, none over another, in letters of 11 pixels or more."""
        width, height = int(self.root.get("width")), int(self.root.get("height"))
        sizes = [int(n) for n in re.findall(r"font(?:-size)?:\s*(\d+)px", "".join(s.text or "" for s in self.root.iter(SPACE + "style")))]
        self.fault(sizes and min(sizes) >= 11, "letters below 11 pixels")
        boxes = sorted((box_of(t) + (t.text,) for t in self.root.iter(SPACE + "text") if t.text), key=lambda b: b[1])
        open_boxes = []
        for box in boxes:
            self.fault(box[0] >= 0 and box[1] >= 0 and box[2] <= width and box[3] <= height, f"text outside: {box[4]}")
            open_boxes = [other for other in open_boxes if other[3] > box[1]]
            for other in open_boxes:
                self.fault(other[2] <= box[0] or box[2] <= other[0], f"text over text: {other[4]} / {box[4]}")
            open_boxes.append(box)

    def ends(self, path, what):
        """A path's ends in the range stand in the rows of their records, at an edge of their lanes, on a mark."""
        source, target, points = int(path.get("data-from")), int(path.get("data-to")), points_of(path)
        for at, (x, y) in ((source, points[0]), (target, points[-1])):
            if self.inside(at) and not (what == "lost" and at == target):
                self.fault(y == self.rows.get(at), f"{what} {source} to {target}: an end isn't in the row of {at}")
                self.fault(x in self.lanes[self.kernel(at)], f"{what} {source} to {target}: an end isn't at the lane's edge of {at}")
                self.fault(what == "move" or (x, y) in self.circles, f"{what} {source} to {target}: no mark at {at}")
        if what == "lost":
            x, y = points[-1]
            self.fault(y == self.rows.get(target), f"lost {source} to {target}: it breaks off in another row")
            self.fault(all(x < a or b < x for a, b in self.lanes.values()), f"lost {source} to {target}: it breaks off within a lane")
        return source, target

    def paths(self):
        """One arrow to each record Deliver, one broken arrow to each lost packet, one band for each move."""
        drawn = {"arrow": [], "lost": [], "move": []}
        for path in self.root.iter(SPACE + "path"):
            if path.get("class") in drawn:
                drawn[path.get("class")].append(self.ends(path, path.get("class")))
        wanted, frozen, sent = {"arrow": [], "lost": [], "move": []}, {}, set()
        for at, words in self.words.items():
            if words[1] == "Send":
                sent.add(words[2])
            elif words[1] == "Deliver" and words[2] in sent:
                wanted["arrow"].append(at)
            elif words[1] == "Fault" and words[4] == "lost":
                wanted["lost"].append(at)
            elif words[1] == "Freeze":
                frozen[words[2]] = at
            elif words[1] == "Thaw" and words[2] in frozen:
                source = frozen.pop(words[2])
                if self.kernel(source) != self.kernel(at):
                    wanted["move"].append(at)
        for what, found in drawn.items():
            ends = sorted(target for _, target in found if self.inside(target))
            self.fault(ends == [at for at in wanted[what] if self.inside(at)], f"{what}: not one for each record that it belongs to")
            self.fault(all(source < target for source, target in found), f"{what}: one goes upwards")

    def all(self):
        self.records()
        self.texts()
        self.paths()
        return self.faults


def main(arguments):
    with open(arguments[0], encoding="latin-1") as file:
        lines = [line for line in file.read().split("\n") if line and line not in ("budget", "stalled")]
    with open(arguments[1], "rb") as file:
        svg = file.read()
    first, last = (int(arguments[2]), int(arguments[3])) if len(arguments) == 4 else (1, len(lines))
    try:
        faults = Check(lines, svg, max(first, 1), min(last, len(lines))).all()
    except ET.ParseError as error:
        faults = [f"not well formed: {error}"]
    for fault in faults[:50]:
        print(fault)
    print(f"{len(faults)} faults in records {first} to {last}")
    return 1 if faults else 0


if __name__ == "__main__":
    sys.exit(main(sys.argv[1:]))
