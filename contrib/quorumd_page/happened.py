"""What `quorumctl history` tells, as events, and the spans of time in which something was so."""
import datetime
import re
from collections import namedtuple

NODE = r"(?:node )?(\d+)(?: \([^)]*\))?"
LINE = re.compile(r"(\d{4}-\d\d-\d\d \d\d:\d\d:\d\d\.\d{3})  " + NODE + " (.*)")
FENCED = re.compile("fenced " + NODE + ": reset written, ok=(yes|no)")
TRACKS = ("runs", "quorate", "holds")
HEARS = re.compile("hears " + NODE + "( no more)?")

# A line of the history: its time in seconds since 1970, the id of its node, and the rest of its sentence.
Event = namedtuple("Event", "time ident said")

# From when until when something was so, and what is said of it.
Span = namedtuple("Span", "kind begin end text")

# What happened at a moment to a node.
Mark = namedtuple("Mark", "kind time text")


def events_of(text):
    """The events of a history; lines that are none are passed over."""
    found = []
    for line in text.splitlines():
        match = LINE.fullmatch(line)
        if match:
            moment = datetime.datetime.strptime(match[1], "%Y-%m-%d %H:%M:%S.%f").replace(tzinfo=datetime.timezone.utc)
            found.append(Event(moment.timestamp(), int(match[2]), match[3]))
    return found


def fences_of(events):
    """The events of which each is a fence that was written, and whether that was done: pairs of an event and the id of the node that was fenced."""
    return [(event, int(match[1]), match[2] == "yes") for event, match in ((event, FENCED.match(event.said)) for event in events) if match]


def told_of(said):
    """What a sentence says of its own node: for each track whether it is on from then on."""
    if said in ("holds the resource", "holds it no more"):
        return {"holds": said == "holds the resource"}
    if said.startswith(("has a quorum", "lost its quorum")):
        return {"quorate": said.startswith("has")}
    if said.startswith("ended: "):
        return dict.fromkeys(TRACKS, False)
    return {"runs": True} if said.startswith("booted") else {}


def spans_of(changes, is_now, begin, end):
    """The spans within begin and end in which it was so. Changes are pairs of a time and whether it is so from then on; before the first one it was the
    other way round, since each change is told, and without one it was as it is now."""
    is_so = is_now if not changes else not changes[0][1]
    spans, since = [], begin
    for time, becomes in [*changes, (end, None)]:
        time = min(max(time, begin), end)
        if becomes is not is_so:
            if is_so and time > since:
                spans.append((since, time))
            is_so, since = becomes, time
    return spans


class Story:
    """The changes of each track of a node, and the spans of which nobody knows: up to its next boot from the moment on at which others missed it, or else from
    its last line on."""

    def __init__(self, events, ident):
        self.changes = {track: [] for track in TRACKS}
        self.gaps, self.is_on, self.last, self.missed = [], {}, None, None
        for event in events:
            if event.ident == ident:
                self.take(event)
            elif self.missed is None and is_missed(event.said, ident):
                self.missed = event.time

    def take(self, event):
        if event.said.startswith("booted"):
            self.break_off(event.time)
        elif "runs" not in self.is_on:
            self.is_on["runs"] = True  # its boot was before the first line
        for track, becomes in told_of(event.said).items():
            self.change(track, event.time, becomes)
        self.last, self.missed = event.time, None

    def break_off(self, time):
        """Nothing more is known up to that time, where it had not ended."""
        if any(self.is_on.values()):
            last_word = "held the resource" if self.is_on.get("holds") else "was there"
            since = self.last if self.missed is None else self.missed
            self.gaps.append((since, time, "nothing is known; by its last word it " + last_word))
            for track in TRACKS:
                self.change(track, since, False)

    def change(self, track, time, becomes):
        if self.is_on.get(track) is not becomes:
            self.changes[track].append((time, becomes))
            self.is_on[track] = becomes


def is_missed(said, ident):
    """Whether another node says that it missed that one."""
    fenced, heard = FENCED.match(said), HEARS.match(said)
    return bool(fenced and int(fenced[1]) == ident or heard and int(heard[1]) == ident and heard[2])


def heard_changes(events, ident):
    """The changes of whether others hear a node, by the last one that says so."""
    found = []
    for event in events:
        match = HEARS.match(event.said)
        if match and int(match[1]) == ident:
            found.append((event.time, match[2] is None))
    return found


def lane_of(node, events, begin, end):
    """The spans and the marks of a node within begin and end. Where it has no lines of its own, whether others heard it is all that is known."""
    story = Story(events, node.ident)
    now = {"holds": bool(node.holds), "quorate": bool(node.quorate), "runs": node.is_live}
    if node.is_own or story.last is not None:
        if not node.is_live and node.phase != "heard":
            story.break_off(end)
        spans = [Span(track, *span, "") for track in TRACKS for span in spans_of(story.changes[track], now[track], begin, end)]
        spans += [Span("gap", max(first, begin), last, text) for first, last, text in story.gaps if begin < last]
    else:
        spans = [Span("heard", *span, "") for span in spans_of(heard_changes(events, node.ident), node.phase != "not heard", begin, end)]
    return spans, [mark for mark in marks_of(node.ident, events) if begin <= mark.time <= end]


def marks_of(ident, events):
    """What happened to a node, and when."""
    for event in events:
        fenced = FENCED.match(event.said)
        if fenced and int(fenced[1]) == ident:
            yield Mark("fenced", event.time, "fenced by node %d%s" % (event.ident, "" if fenced[2] == "yes" else ", not written"))
        elif event.ident == ident and event.said.startswith("booted"):
            yield Mark("booted", event.time, event.said)
        elif event.ident == ident and event.said.startswith("ended: "):
            yield Mark("ended", event.time, event.said)
        elif event.ident == ident and re.match("read (reset|off|exit|crashdump) ", event.said):
            yield Mark("message", event.time, event.said)
        elif event.ident == ident and event.said.startswith("failed "):
            yield Mark("failed", event.time, event.said)
