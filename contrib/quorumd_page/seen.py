"""What the page said each time that it was written: who holds, as far as this host knew. A journal tells that of the node of its own host alone."""
from collections import namedtuple

from .cluster import STATES
from .happened import Span

# A moment in seconds since 1970, the verdict, and the ids of those that held: `-` nobody, `?` not known.
Seen = namedtuple("Seen", "time state holders")


def of_now(time, cluster):
    """What is seen at this moment."""
    holders = ",".join(str(node.ident) for node in cluster.holders())
    return Seen(int(time), cluster.state, holders or ("-" if cluster.state == "no owner" else "?"))


def line_of(seen):
    return "%d %s %s\n" % (seen.time, seen.state.replace(" ", "-"), seen.holders)


def lines_read(text, since, until):
    """What such lines say of the moments between the two; others are passed over."""
    found = []
    for line in text.splitlines():
        words = line.split(" ")
        if len(words) == 3 and words[0].isdecimal() and len(words[0]) < 12 and words[1].replace("-", " ") in STATES:
            found.append(Seen(int(words[0]), words[1].replace("-", " "), words[2]))
    return [seen for seen in found if since <= seen.time <= until]


def title_of(cluster, holders):
    """Who held, in words."""
    if holders in ("-", "?"):
        return "no owner" if holders == "-" else "owner not known"
    return " and ".join(cluster.title_of(int(ident)) if ident.isdecimal() else ident for ident in holders.split(",")) + (" held" if "," not in holders else " BOTH held")


def spans_of(cluster, found, apart):
    """A span for each time in which the same was seen. Where the page was not written for longer than `apart` seconds, nothing is known."""
    spans = []
    for seen, after in zip(found, found[1:]):
        if after.time - seen.time > apart:
            continue
        kind, text = seen.state.replace(" ", "-"), title_of(cluster, seen.holders)
        if spans and spans[-1].end == seen.time and (spans[-1].kind, spans[-1].text) == (kind, text):
            spans[-1] = spans[-1]._replace(end=after.time)
        else:
            spans.append(Span(kind, seen.time, after.time, text))
    return spans
