"""The nodes of a cluster as one host knows them: its own by their status files, the others by what was heard of them. A key that a release does not write
says nothing."""
import json
from dataclasses import dataclass, field

GROUPS = ("none", "down", "looking", "starting", "runs", "unsure", "stopping", "failed", "stuck", "maintenance", "unattended")
FINE_GROUPS = ("none", "runs", "unsure", "maintenance", "")
QUIET_MAIL = ("empty", "test", "unread")
STATES = ("healthy", "degraded", "no owner", "unknown")


@dataclass
class Node:
    """What is known of a node. What is not known is None, and a word that is not known is empty."""
    ident: int
    name: str = ""
    is_own: bool = False  # it runs on this host, and its file was read
    is_live: bool = False  # what is known of it is of now
    holds: bool = None
    held_ms: int = None
    quorate: bool = None
    votes: str = ""  # `VOTES/QUORUM`
    phase: str = ""
    why: str = ""
    mail: str = ""
    group: str = ""
    silent_ms: int = None  # how old the last word of it is
    refused: int = 0  # packets of it that no key of this host opened

    def title(self):
        return self.name or "node %d" % self.ident


@dataclass
class Cluster:
    """The verdict with its reason, the nodes in the order of their ids, and a line for each file that is none."""
    state: str
    said: str
    nodes: list = field(default_factory=list)
    faults: list = field(default_factory=list)

    def holders(self):
        return [node for node in self.nodes if node.holds]

    def node(self, ident):
        return next((node for node in self.nodes if node.ident == ident), None)

    def title_of(self, ident):
        node = self.node(ident)
        return node.title() if node else "node %d" % ident


def unknown(why):
    """The cluster of which nothing could be read."""
    return Cluster("unknown", why)


def group_word(shown):
    """How the group of a node is, of an object that may have it: empty where that says nothing, null where nothing looks after it."""
    number = shown.get("group", -1)
    if number is None:
        return "unattended"
    return GROUPS[number] if isinstance(number, int) and 0 <= number < len(GROUPS) else ""


def own_node(shown):
    """A node by its own file."""
    live = not shown["stale"]
    mail = shown["mail"] if shown["mail"] not in QUIET_MAIL else ""
    phase = shown["phase"] if live else "ended: %s" % shown["end"] if shown["end"] is not None else "silent"
    return Node(shown["id"], shown.get("name") or "", True, live, shown["holds"] if live else None, shown.get("held_ms"), shown["quorate"] if live else None,
                "%d/%d" % (shown["votes"], shown["quorum"]), phase, shown["why"] if live else "", mail, group_word(shown), shown["age"])


def other_node(shown, peer):
    """A node by what that file says of it, whose node was looked at `age` after its tick."""
    now, limit = shown["tick"] + shown["age"], 3 * shown["loop"] + 1000
    hello = peer.get("hello_tick")
    silent_ms = None if hello is None else max(0, now - hello)
    is_heard = not shown["stale"] and silent_ms is not None and silent_ms <= limit
    node = Node(peer["id"], peer.get("name") or "", phase="heard" if is_heard else "not heard", silent_ms=silent_ms, refused=peer.get("refused", 0))
    told = peer.get("told")
    if told and not shown["stale"] and 0 <= now - told["tick"] <= limit:
        node.is_live, node.holds, node.quorate = True, told["holds"], told["quorate"]
        node.held_ms, node.group = told["held_ms"], group_word(told)
        node.phase = "leaving" if told["leaving"] else node.phase
    return node


def rank(node):
    """A node by its own file goes before one of which others tell, and what is of now before what was; then the last word counts."""
    return (node.is_own, node.is_live, -(node.silent_ms if node.silent_ms is not None else 1 << 64))


def cluster_of(text):
    """The cluster that a text of `quorumctl status --json` shows; ValueError where it is none."""
    try:
        shown = json.loads(text)
        read = [node for node in shown["nodes"] if node["id"] is not None]
        found = [own_node(node) for node in read] + [other_node(node, peer) for node in read for peer in node["peers"]]
        faults = ["%s: %s" % (node["path"], node["error"]) for node in shown["nodes"] if node["id"] is None]
        state, said = shown["state"], shown["said"].removeprefix(shown["state"] + ": ")
    except (AttributeError, KeyError, TypeError) as fault:
        raise ValueError("no status of a cluster: %r" % fault) from fault
    best = {}
    for node in sorted(found, key=rank):
        known = best.get(node.ident)
        node.name = node.name or (known.name if known else "")
        best[node.ident] = node
    return Cluster(state if state in STATES else "unknown", said, [best[ident] for ident in sorted(best)], faults)
