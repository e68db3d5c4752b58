"""For tests/scripts/timelines.sh, which says what is tested."""
import os
import pathlib
import re
import subprocess
import sys
import xml.etree.ElementTree as ElementTree

TOP, QUORUMD = pathlib.Path(os.environ["TOP"]), os.environ["QUORUMD"]
SVG = "{http://www.w3.org/2000/svg}"
LETTER, SHAPE = 6.02, 4
PAGE = 718  # pixels: a page of A4, at 96 to the inch, within edges of a centimetre
wrong = []


def demand(holds, where, what):
    if not holds:
        wrong.append("%s: %s" % (where, what))


class Picture:
    """What a picture says at each event, read off its elements."""

    def __init__(self, path):
        self.root = ElementTree.parse(path).getroot()
        self.lanes = {group.get("data-lane"): list(group) for group in self.root.iter(SVG + "g")}

    def kinds(self, lane, event):
        """The kinds of the spans of a lane that an event lies in, each with its text."""
        spans = [item for item in self.lanes[lane] if item.get("data-first")]
        return {span.get("data-kind"): span.get("data-text") for span in spans
                if int(span.get("data-first")) <= event < int(span.get("data-last"))}

    def marks(self, kind):
        """The marks of a kind: event, lane and text, in order."""
        return sorted((int(item.get("data-point")), lane, item.get("data-text")) for lane, items in self.lanes.items()
                      for item in items if item.get("data-point") and item.get("data-kind") == kind)

    def labels(self, kind):
        """The numbers of the axis: x and number."""
        return [(int(text.get("x")), int(text.text)) for text in self.root.iter(SVG + "text") if text.get(kind)]

    def leads(self):
        """The lines from a bar to what is said of it: x, top and bottom."""
        for path in self.root.iter(SVG + "path"):
            if path.get("class") == "lead":
                left, top, bottom = re.fullmatch(r"M(\d+) (\d+)L\1 (\d+)", path.get("d")).groups()
                yield int(left), int(top), int(bottom)

    def texts(self):
        """Each text, and each shape of a mark, with the box that it fills."""
        for text in self.root.iter(SVG + "text"):
            x, y = int(text.get("x")), int(text.get("y"))
            yield text.text, (x, y - 8, x + LETTER * len(text.text), y + 2)
        for path in self.root.iter(SVG + "path"):
            if path.get("data-point"):
                x, y = map(int, re.match(r"M(\d+) (\d+)", path.get("d")).groups())
                yield path.get("data-kind"), (x - SHAPE, y, x + SHAPE, y + 2 * SHAPE)


def told(events, trace):
    """What the trace says after each event: of each node that was touched whether it is up, is quorate and its condition, and who holds."""
    running, last = set(), {}
    for event, line in zip(events, trace):
        _, time, ident, outs, holders, *count = line.split(" ")
        if ident not in ("-", "arbiter"):
            if event.startswith("boot"):
                running.add(ident)
            if event.startswith("crash") or outs == "disarm" or "halt:boot-" in outs:
                running.discard(ident)
            last[ident] = (count[0] == "quorate=yes", count[2][4:])
        yield int(time), {ident: (ident in running and why != "down", quorate, why) for ident, (quorate, why) in last.items()}, \
            set(holders[8:].split("+")) - {"-"}


def resets(events, trace):
    """The resets that were asked for, and those that landed: event, victim and writer."""
    asked, landed, out = [], [], {}
    for number, (event, line) in enumerate(zip(events, trace), 1):
        ident, outs = line.split(" ")[2:4]
        if event.startswith("land ") and out.get(ident, "").startswith("reset:"):
            landed.append((number, "node " + out[ident][6:], ident))
        for word in outs.split(","):
            if re.match("(read|check|claim|clear|reset|close)", word):
                out[ident] = word
            if word.startswith("reset:"):
                asked.append((number, "node " + word[6:], ident))
    return asked, landed


def try_lanes(where, picture, events, trace):
    for number, (time, nodes, holders) in enumerate(told(events, trace), 1):
        for ident, (is_up, quorate, why) in nodes.items():
            kinds = picture.kinds("node " + ident, number)
            place = "%s, event %d, node %s" % (where, number, ident)
            demand(("up" in kinds) == is_up, place, "up: %r" % kinds)
            demand(("quorate" in kinds) == quorate, place, "quorate: %r" % kinds)
            shown = kinds.get("blocked")
            wanted = why if is_up and why != "holding" else None
            waits = re.fullmatch(r"(unfenced:\d+:)(\d+)", wanted or "")
            is_wait = waits and shown and shown.startswith(waits[1]) and int(shown[len(waits[1]):]) >= int(waits[2])
            demand(shown == wanted or is_wait, place, "blocked by %r, not %r" % (shown, wanted))
        for lane in picture.lanes:
            demand(("holds" in picture.kinds(lane, number)) == (lane[5:] in holders), where, "holders after event %d" % number)


def changes(picture):
    """The events at which something begins or ends in a picture, and those before them."""
    ends = {int(item.get(name)) for items in picture.lanes.values() for item in items for name in ("data-first", "data-last") if item.get(name)}
    return ends | {event - 1 for event in ends}


def try_status(where, picture, head, events):
    """`quorumd status` says the same of phases and holders, where they change and at the end."""
    for number in sorted(changes(picture) & set(range(1, len(events) + 1))):
        text = head + "".join(event + "\n" for event in events[:number])
        lines = subprocess.run([QUORUMD, "status"], input=text, stdout=subprocess.PIPE, text=True, check=True).stdout.splitlines()
        for _, ident, phase, holds, *_ in map(str.split, lines):
            kinds = picture.kinds("node " + ident, number)
            drawn = {"booting", "up", "leaving", "dying"} & set(kinds)
            demand(drawn == {phase} - {"off"}, where, "node %s is %s after event %d, and drawn as %r" % (ident, phase, number, kinds))
            demand(("holds" in kinds) == (holds == "holds=yes"), where, "node %s %s after event %d" % (ident, holds, number))


def try_axis(where, picture, trace):
    """Each number of an event stands under the last time that is not above its own."""
    times = picture.labels("data-time")
    demand(times == sorted(times) and len(times) > 0, where, "times that do not ascend: %r" % times)
    for x, event in picture.labels("data-point"):
        time = int(trace[event - 1].split(" ")[1])
        before = [label for place, label in times if place <= x]
        after = [label for place, label in times if place > x]
        demand((not before or before[-1] <= time) and (not after or time <= after[0]), where, "event %d of time %d" % (event, time))


def try_texts(where, picture):
    """No text and no shape lies over another one, or beyond the edge, and no line from a bar crosses a text."""
    boxes = list(picture.texts())
    width, height = int(picture.root.get("width")), int(picture.root.get("height"))
    for place, (text, (left, top, right, bottom)) in enumerate(boxes):
        demand(left >= 0 and top >= 0 and right <= width and bottom <= height, where, "%r lies beyond the edge" % text)
        for other, (left2, top2, right2, bottom2) in boxes[place + 1:]:
            demand(right <= left2 or right2 <= left or bottom <= top2 or bottom2 <= top, where, "%r lies over %r" % (other, text))
        for x, begin, end in picture.leads():
            demand(not (left + 1 < x < right - 1 and begin < bottom and top < end), where, "a line crosses %r" % text)


def try_width(where, picture):
    """A letter keeps its size on a page; and where the picture is not to scale, it says so."""
    demand(int(picture.root.get("width")) <= PAGE, where, "wider than a page: %s" % picture.root.get("width"))
    says = any((text.text or "").startswith("Not to scale: ") for text in picture.root.iter(SVG + "text"))
    demand(says == (picture.root.get("data-scale") is None and len(picture.labels("data-time")) > 1), where, "what it says of its scale: %s" % says)


def try_scale(where, picture):
    """A picture to scale has each time where it is in proportion."""
    demand(picture.root.get("data-scale") == "time", where, "not to scale")
    (x, begin), *_, (right, end) = times = picture.labels("data-time")
    for place, time in times:
        demand(abs(place - x - (right - x) * (time - begin) / (end - begin)) <= 1, where, "time %d at %d" % (time, place))


def try_votes(where, picture, events, trace):
    """Each poll, answer and reply is marked, and where a node is quorate the arbiter is bound to no other one."""
    polls, answers, wanted = [], [], []
    for number, (event, line) in enumerate(zip(events, trace), 1):
        (word, *values), (ident, outs) = event.split(" "), line.split(" ")[2:4]
        if word == "poll":
            wanted.append((number, "node " + ident, "poll", str(len(polls))))
            polls.append("node " + ident)
        if word == "hear":
            answers.append(outs.split(":")[0])
            wanted.append((number, "arbiter", answers[-1], polls[int(values[0])]))
        if word == "reply":
            wanted.append((number, "node " + ident, "reply", answers[int(values[0])]))
        quorate = [lane for lane in picture.lanes if "quorate" in picture.kinds(lane, number)]
        bound = picture.kinds("arbiter", number).get("bound")
        demand(len(quorate) <= 1, where, "quorate after event %d: %r" % (number, quorate))
        demand(bound is None or quorate in ([], [bound[len("bound to "):]]), where, "event %d: %s, quorate: %r" % (number, bound, quorate))
    drawn = [(point, lane, kind, text) for kind in ("poll", "yes", "no", "reply") for point, lane, text in picture.marks(kind)]
    demand(sorted(drawn) == wanted, where, "polls, answers and replies: %r" % wanted)


def try_picture(folder):
    """What is tried of every picture; gives the picture, and the parts of its schedule and trace."""
    where, schedule = folder.name, (folder / "schedule").read_text()
    head, events = re.match(r"(?s)(.*\n----\ntiming [^\n]*\n(?:lease [^\n]*\n)?)(.*)", schedule).groups()
    events, trace = events.splitlines(), (folder / "trace").read_text().splitlines()[:-1]
    picture = Picture(folder / "timeline.svg")
    try_lanes(where, picture, events, trace)
    asked, landed = resets(events, trace)
    demand(picture.marks("asked") == asked, where, "resets that were asked for: %r" % asked)
    demand(picture.marks("landed") == landed, where, "resets that landed: %r" % landed)
    try_axis(where, picture, trace)
    try_texts(where, picture)
    try_width(where, picture)
    return picture, head, events, trace


def folders(kind):
    """The folders of that kind that have a picture."""
    return sorted(path.parent for path in (TOP / "examples" / kind).glob("*/timeline.svg"))


for folder in folders("incidents"):
    picture, head, events, _ = try_picture(folder)
    try_status(folder.name, picture, head, events)
for folder in folders("arbiter"):
    picture, _, events, trace = try_picture(folder)
    try_votes(folder.name, picture, events, trace)
for path in "examples/try.svg", "examples/three-images/an-image-is-lost/timeline.svg", "examples/live/journal.svg", "tests/machines/take-over.svg", *sys.argv[1:]:
    picture = Picture(TOP / path)
    try_texts(path, picture)
    try_width(path, picture)
    if "journal" in path or "take-over" in path:
        try_scale(path, picture)
print("\n".join(wrong[:40]))
sys.exit(1 if wrong else 0)
