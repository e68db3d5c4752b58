"""The page: one file, with nothing from elsewhere."""
import base64
import datetime
import hashlib
import re
from html import escape

from . import happened, picture, seen
from .cluster import FINE_GROUPS

BEGIN = "<!doctype html>\n<!-- by quorumd-page -->\n"
HOUR = 3600
FENCES, EVENTS = 8, 15  # how many of the last ones are shown
ALARMS = {"healthy": "✓", "degraded": "!", "no owner": "✕", "unknown": "?"}

# The page is of no use where it is old: a page that is read from a file, or that nobody writes any more, has to say so itself.
SCRIPT = """\
const box = document.getElementById("old"), written = %d;
function look() {
    const age = Math.round(Date.now() / 1000 - written);
    box.hidden = Math.abs(age) < %d;
    document.body.className = box.hidden ? "" : "aged";
    box.textContent = age < 0 ? "This page is of " + -age + " s after the clock of your computer." :
        "THIS PAGE IS " + age + " s OLD and says nothing of now: its host is down, or quorumd-page.timer does not run there.";
}
look();
setInterval(look, 1000);
"""

STYLE = """\
:root{color-scheme:light dark;--paper:#fff;--ink:#1b1f24;--dim:#59636e;--line:#d1d9e0;--fine:#1a7f37;--poor:#9a6700;--bad:#cf222e;--none:#59636e;--bar:#0969da;
--half:#54aeff;--thin:#8c959f;--fine-bar:#aceebb;--poor-bar:#f2d68a;--bad-bar:#ffb3ae;--none-bar:#d1d9e0}
@media(prefers-color-scheme:dark){:root{--paper:#0d1117;--ink:#e6edf3;--dim:#9198a1;--line:#3d444d;--fine:#3fb950;--poor:#d29922;--bad:#f85149;--none:#9198a1;
--bar:#4493f8;--half:#1f6feb;--thin:#656c76;--fine-bar:#1c5a2a;--poor-bar:#6b4f06;--bad-bar:#8e2119;--none-bar:#3d444d}}
body{margin:0 auto;padding:0 16px 32px;max-width:1120px;background:var(--paper);color:var(--ink);font:15px/1.45 system-ui,sans-serif}
header{display:flex;gap:14px;align-items:center;margin:16px 0;padding:12px 16px;border:2px solid var(--tone);border-radius:8px}
header i{flex:none;width:44px;height:44px;border-radius:50%;background:var(--tone);color:var(--paper);font:bold 26px/44px system-ui,sans-serif;text-align:center}
h1{margin:0;font-size:22px;color:var(--tone);overflow-wrap:anywhere}h2{margin:26px 0 8px;font-size:17px}
header p{margin:2px 0 0;overflow-wrap:anywhere}.dim,.legend,.lane b{color:var(--dim)}.dim{font-size:13px}
.healthy{--tone:var(--fine)}.degraded{--tone:var(--poor)}.no-owner{--tone:var(--bad)}.unknown{--tone:var(--none)}
.aged header{opacity:.3}#old{padding:10px 16px;border-radius:8px;background:var(--bad);color:#fff;font-weight:bold}
table{width:100%;border-collapse:collapse}th{text-align:left;font-size:13px;color:var(--dim);font-weight:normal}
td,th{padding:6px 10px 6px 0;border-bottom:1px solid var(--line);vertical-align:top;overflow-wrap:anywhere}
.owner td:first-child{font-weight:bold}.tag{display:inline-block;margin-left:8px;padding:0 8px;border-radius:9px;background:var(--bar);color:var(--paper);font-size:12px;font-weight:bold}
.clash .tag{background:var(--bad)}.wrong{color:var(--bad)}
.hour{display:grid;grid-template-columns:fit-content(16em) 1fr;gap:0 8px;align-items:center}.lane{display:contents}.lane b{font-size:13px;line-height:1.1;overflow-wrap:anywhere;text-align:right}
svg{display:block}svg text{font:11px system-ui,sans-serif;fill:var(--ink)}.strip{overflow:visible}.strip line{stroke:var(--line)}
.runs,.heard{fill:var(--thin)}.quorate{fill:var(--half)}.holds{fill:var(--bar)}.gap{fill:none;stroke:var(--thin);stroke-dasharray:3 3}
rect.healthy{fill:var(--fine-bar)}rect.degraded{fill:var(--poor-bar)}rect.no-owner{fill:var(--bad-bar)}rect.unknown{fill:var(--none-bar)}
.mark{fill:var(--paper);stroke:var(--ink);stroke-width:1.6}.mark.fenced,.mark.failed{stroke:var(--bad);stroke-width:3}
.legend{display:flex;flex-wrap:wrap;gap:2px 16px;margin:6px 0;font-size:13px}.legend span{display:inline-flex;align-items:center;gap:5px}
ol{margin:0;padding:0;list-style:none}li{padding:3px 0;border-bottom:1px solid var(--line);overflow-wrap:anywhere}li time{margin-right:10px;color:var(--dim);font-variant-numeric:tabular-nums}
@media(max-width:640px){.hour{grid-template-columns:fit-content(7em) 1fr}.lane b{font-size:11px}thead{display:none}tr{display:grid;grid-template-columns:1fr 1fr 1fr;padding:6px 0;border-bottom:1px solid var(--line)}
td{padding:1px 8px 1px 0;border:0}td:empty{display:none}td:first-child,td:last-child{grid-column:1/4}h1{font-size:19px}}
"""


def spell(milliseconds):
    """A time that passed, in words."""
    seconds = milliseconds // 1000
    if seconds < 60:
        return "%.1f s" % (milliseconds / 1000)
    if seconds < 2 * HOUR:
        return "%d min" % (seconds // 60)
    return "%d h" % (seconds // HOUR) if seconds < 48 * HOUR else "%d days" % (seconds // (24 * HOUR))


def day_and_time(time):
    return datetime.datetime.fromtimestamp(time, datetime.timezone.utc).strftime("%Y-%m-%d %H:%M:%S")


def headline(cluster):
    """The verdict, and its reason where that says more than who holds."""
    if cluster.said.startswith("TWO HOLDERS: "):
        return "TWO HOLDERS", ""
    is_plain = cluster.state == "healthy" and re.fullmatch(r"(node )?\S+ holds", cluster.said)
    return cluster.state, "" if is_plain else cluster.said


def owner_line(cluster):
    """Who holds, and for how long."""
    holders = cluster.holders()
    if not holders:
        return "Nobody holds the resource." if cluster.state == "no owner" else "Who holds the resource is not known here."
    names = " and ".join("<strong>%s</strong>" % escape(node.title()) for node in holders)
    if len(holders) > 1:
        return "%s hold, by their own word." % names if cluster.state == "no owner" else "%s: the one hands over to the other." % names
    since = " for %s" % spell(holders[0].held_ms) if holders[0].held_ms is not None else ""
    return "%s holds the resource%s." % (names, since)


def reason(cluster, why):
    """What blocks the start of a node, in words; a word that is not known here is shown as it is."""
    word, _, rest = why.partition(":")
    ident, _, left = rest.partition(":")
    name = cluster.title_of(int(ident)) if ident.isdecimal() else ident
    if word == "unfenced":
        return "waits for the reset of %s%s" % (name, ": %s left" % spell(int(left)) if left.isdecimal() else " to be written")
    if word == "not-chosen" and ident == "0":
        return "its view lets nobody start"
    said = {"holding": "", "clear": "starts now", "down": "", "no-view": "has no view yet", "wait-for-all": "waits for all nodes", "not-quorate": "has %s votes" % rest,
            "not-chosen": "leaves it to %s" % name, "held-by": "%s said that it holds" % name, "unheard": "waits for an answer of %s" % name}
    return said.get(word, why)


def notes_of(cluster, node):
    """What else is known of a node, part by part."""
    yield reason(cluster, node.why)
    if node.mail:
        yield "has mail %s" % node.mail
    if node.group not in FINE_GROUPS or node.group in ("unsure", "maintenance"):
        yield "nothing looks after its resources" if node.group == "unattended" else "its resources: %s" % node.group
    if not node.is_own and not node.is_live and node.phase == "heard":
        yield "tells nothing of itself"
    if node.refused:
        yield "%d of its packets were refused: another key or text" % node.refused


def last_word(node):
    return "never" if node.silent_ms is None else "%s ago" % spell(node.silent_ms)


def node_row(cluster, node):
    """A node: its name, how it is, its votes, its last word, and what else is known."""
    names = ["owner"] * bool(node.holds) + ["clash"] * (bool(node.holds) and cluster.state == "no owner")
    tag = '<span class="tag">HOLDS</span>' if node.holds else ""
    is_wrong = node.phase.startswith(("ended", "silent", "not heard", "dying"))
    quorate = "" if node.quorate is None else "quorate" if node.quorate else "not quorate"
    votes = " ".join(word for word in (quorate, node.votes if node.is_live and node.is_own else "") if word)
    notes = "; ".join(note for note in notes_of(cluster, node) if note)
    return '<tr class="%s"><td>%s%s</td><td%s>%s</td><td>%s</td><td>%s</td><td>%s</td></tr>' % (
        " ".join(names), escape(node.title()), tag, ' class="wrong"' if is_wrong else "", escape(node.phase), escape(votes), last_word(node), escape(notes))


def nodes_table(cluster):
    if not cluster.nodes:
        return ""
    rows = "\n".join(node_row(cluster, node) for node in cluster.nodes)
    return "<h2>Nodes</h2>\n<table><thead><tr><th>Node</th><th>Is</th><th>Votes</th><th>Last word</th><th></th></tr></thead>\n<tbody>\n%s\n</tbody></table>" % rows


def hour_picture(cluster, events, looks, now, every):
    """The last hour: what this host saw, and a strip for each node."""
    begin = now - HOUR
    lanes = [picture.verdict_lane(seen.spans_of(cluster, looks, max(60, 6 * every)), begin, now)]
    lanes += [picture.lane(node.title(), *happened.lane_of(node, events, begin, now), begin, now) for node in cluster.nodes]
    return '<h2>The last hour</h2>\n<div class="hour">\n%s\n%s\n</div>\n%s' % ("\n".join(lanes), picture.axis(begin, now), picture.legend())


def with_names(cluster, said):
    """A sentence of the history with names in the place of numbers."""
    return re.sub(r"\bnode (\d{1,10})\b", lambda match: cluster.title_of(int(match[1])), said)


def listed(title, pairs, nothing):
    """A heading, and a list of times with what was then; the last first."""
    items = "\n".join('<li><time>%s</time>%s</li>' % (day_and_time(time), escape(said)) for time, said in reversed(pairs))
    return "<h2>%s</h2>\n%s" % (title, "<ol>\n%s\n</ol>" % items if items else '<p class="dim">%s</p>' % nothing)


def fences_list(cluster, events):
    pairs = [(event.time, "%s was fenced by %s%s" % (cluster.title_of(of), cluster.title_of(event.ident), "" if is_written else ": the reset was NOT written"))
             for event, of, is_written in happened.fences_of(events)]
    return listed("The last fences", pairs[-FENCES:], "None in the journals that were read.")


def events_list(cluster, events):
    pairs = [(event.time, with_names(cluster, "node %d %s" % (event.ident, event.said))) for event in events]
    return listed("What happened last", pairs[-EVENTS:], "Nothing in the journals that were read.")


def faults_list(faults):
    return "".join('<p class="wrong">%s</p>\n' % escape(fault) for fault in faults)


def page_of(host, now, every, cluster, events, looks):
    """The page as a text: what the cluster is at that moment, seconds since 1970, on that host; it is written anew so often."""
    state, said = headline(cluster)
    script = SCRIPT % (now, max(60, 6 * every))
    allowed = base64.b64encode(hashlib.sha256(script.encode()).digest()).decode()
    return BEGIN + """<html lang="en"><head><meta charset="utf-8"><title>%s: %s</title>
<meta http-equiv="Content-Security-Policy" content="default-src 'none'; style-src 'unsafe-inline'; script-src 'sha256-%s'">
<meta http-equiv="refresh" content="%d"><meta name="viewport" content="width=device-width,initial-scale=1"><meta name="robots" content="noindex">
<style>
%s</style></head><body>
<p id="old" hidden></p>
<header class="%s"><i aria-hidden="true">%s</i><div><h1>%s</h1><p>%s</p>%s</div></header>
<p class="dim">By quorumctl status on %s, %s UTC. Times are UTC.</p>
%s%s
%s
%s
%s
<script>%s</script>
</body></html>
""" % (escape(state), escape(host), allowed, every, STYLE, cluster.state.replace(" ", "-"), ALARMS[cluster.state], escape(state), owner_line(cluster), '<p class="dim">%s</p>' % escape(said) if said else "",
       escape(host), day_and_time(now), faults_list(cluster.faults), nodes_table(cluster), hour_picture(cluster, events, looks, now, every),
       fences_list(cluster, events), events_list(cluster, events), script)
