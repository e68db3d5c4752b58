"""The last hour as a picture: a strip of time for each node, as SVG whose places are shares of its width, so that it fits each screen and its letters stay
as they are."""
import datetime
from html import escape

HEIGHT = 28  # of a strip, in pixels
BARS = {"runs": (12, 4), "heard": (12, 4), "quorate": (9, 10), "holds": (3, 22), "gap": (9, 10)}  # where a bar begins, and its height
STATE_BAR = (3, 22)
SHAPES = {"fenced": "M-5 5L5 15M5 5L-5 15", "booted": "M0 4L5 14H-5Z", "ended": "M-4 6H4V14H-4Z", "message": "M0 4L5 10L0 16L-5 10Z", "failed": "M0 4V11M0 13V15"}

LEGEND = (("holds", "holds the resource"), ("quorate", "quorate"), ("runs", "runs, or is heard"), ("gap", "no word of it"))
MARKS = (("fenced", "fenced"), ("booted", "boots"), ("ended", "ends"), ("message", "message in its mailbox"), ("failed", "start or stop failed"))


def clock(time):
    """A time of the day, UTC."""
    return datetime.datetime.fromtimestamp(time, datetime.timezone.utc).strftime("%H:%M:%S")


class Strip:
    """What is drawn of one lane between begin and end."""

    def __init__(self, begin, end):
        self.begin, self.end, self.parts = begin, end, []

    def share(self, time):
        return 100 * (time - self.begin) / (self.end - self.begin)

    def bar(self, span, says):
        top, height = BARS.get(span.kind, STATE_BAR)
        left = self.share(span.begin)
        self.parts.append('<rect class="%s" x="%.3f%%" y="%d" width="%.3f%%" height="%d"><title>%s, %s to %s</title></rect>' % (
            span.kind, left, top, max(0.15, self.share(span.end) - left), height, escape(span.text or says), clock(span.begin), clock(span.end)))

    def words(self, span):
        """What is said of a span, as much of it as there is room for; nothing where that is too little."""
        wide = self.share(span.end) - self.share(span.begin)
        if wide > 0.8 * len(span.text):
            self.parts.append('<svg x="%.3f%%" width="%.3f%%" height="%d"><text x="6" y="18">%s</text></svg>' % (self.share(span.begin), wide, HEIGHT, escape(span.text)))

    def mark(self, mark):
        self.parts.append('<svg x="%.3f%%" overflow="visible"><path class="mark %s" d="%s" transform="translate(0 4)"><title>%s, %s</title></path></svg>' % (
            self.share(mark.time), mark.kind, SHAPES[mark.kind], escape(mark.text), clock(mark.time)))

    def drawn(self, label):
        return '<svg class="strip" width="100%%" height="%d" role="img" aria-label="%s"><line x1="0" x2="100%%" y1="14" y2="14"/>%s</svg>' % (
            HEIGHT, escape(label), "".join(self.parts))


def lane(title, spans, marks, begin, end):
    """A row of the picture: the name of the node, and its strip."""
    strip, says = Strip(begin, end), {"heard": "is heard", **dict(LEGEND)}
    for span in sorted(spans, key=lambda span: list(BARS).index(span.kind)):
        strip.bar(span, says[span.kind])
    for mark in marks:
        strip.mark(mark)
    held = ["%s to %s" % (clock(span.begin), clock(span.end)) for span in spans if span.kind == "holds"]
    return '<div class="lane"><b>%s</b>%s</div>' % (escape(title), strip.drawn("%s: %s" % (title, "held " + ", ".join(held) if held else "did not hold, as far as is known here")))


def verdict_lane(spans, begin, end):
    """The row of what this host saw."""
    strip = Strip(begin, end)
    for span in spans:
        strip.bar(span, span.text)
        strip.words(span)
    return '<div class="lane"><b>owner</b>%s</div>' % strip.drawn("who held, as this host saw it: " + ", ".join("%s from %s" % (span.text, clock(span.begin)) for span in spans))


def axis(begin, end):
    """The times below the strips: each ten minutes."""
    strip, time = Strip(begin, end), begin - begin % 600 + 600
    while time < end:
        strip.parts.append('<text x="%.3f%%" y="12" text-anchor="middle">%s</text>' % (strip.share(time), clock(time)[:5]))
        time += 600
    return '<div class="lane"><b>UTC</b><svg width="100%%" height="16" overflow="visible" aria-hidden="true">%s</svg></div>' % "".join(strip.parts)


def legend():
    """What the bars and the marks mean."""
    bars = ['<span><svg width="26" height="28"><rect class="%s" x="1" y="%d" width="24" height="%d"/></svg>%s</span>' % (kind, *BARS[kind], escape(says)) for kind, says in LEGEND]
    marks = ['<span><svg width="16" height="28"><path class="mark %s" d="%s" transform="translate(8 4)"/></svg>%s</span>' % (kind, SHAPES[kind], escape(says)) for kind, says in MARKS]
    return '<p class="legend">%s</p>' % "".join(bars + marks)
