"""The bytes of a node, for its second program (tests/noderuns.py): what a settings text says, the sectors of docs/IMAGE.md, and the packets of
docs/dev/PACKETS.md. Ranks stand for nodes."""
import struct
from collections import namedtuple

from votes import sections_of

SECTOR = 512
MAILBOXES = 512  # the sector of the first mailbox
MESSAGES = ("empty", "test", "reset", "off", "exit", "crashdump")
DEADLY = ("reset", "off", "crashdump")
LONGEST = 3600000  # milliseconds of a time of the image
ALL_MASK = 2 ** 32 - 1
NOBODY = 254  # the high byte of the number of a view under which nobody may start
FAILED, DAMAGED = "failed", "damaged"  # what a read gave that gave nothing

# What docs/SETTINGS.md tells of a text, by ranks. `device` is its votes and its timeout, `tie` the order of the breaker; None where there is none.
Settings = namedtuple("Settings", "ids votes delays two_node wait_for_all last_man_standing window device expected tie")
Times = namedtuple("Times", "watchdog msgwait loop read_limit feed_delay")
Header = namedtuple("Header", "nodes times")
Slot = namedtuple("Slot", "incarnation is_clean")

# A view: its number and the ranks of its members, ascending.
View = namedtuple("View", "number members")
Ask = namedtuple("Ask", "sender to incarnation install view")
Tell = namedtuple("Tell", "sender to incarnation install view holds released")
Vote = namedtuple("Vote", "agrees")
PlainHello = namedtuple("PlainHello", "sender")
Hello = namedtuple("Hello", "sender hears follows able flags weight")
Announce = namedtuple("Announce", "sender view")
Leave = namedtuple("Leave", "")  # of this host: the node is to leave
Word = namedtuple("Word", "flags weight")  # of this host: what the node says of itself


# ---- the settings text

def settings_of(text):
    """The settings of a text that quorumd takes."""
    nodes, sections = sections_of(text)
    nodes = sorted(nodes, key=lambda node: int(node["nodeid"]))
    quorum, device = sections.get(("quorum",), {}), sections.get(("quorum", "device"), {})
    flags = {key: int(quorum.get(key, 0)) != 0 for key in ("two_node", "wait_for_all", "last_man_standing", "auto_tie_breaker")}
    ids = [int(node["nodeid"]) for node in nodes]
    votes = [int(node.get("quorum_votes", 1)) for node in nodes]
    counted = None
    if "model" in device and not flags["last_man_standing"]:
        counted = int(device.get("votes", sum(votes) - 1)), int(device.get("timeout", 10000))
    expected = int(quorum.get("expected_votes", sum(votes) + (counted[0] if counted else 0)))
    waits = flags["wait_for_all"] if "wait_for_all" in quorum else flags["two_node"]
    return Settings(ids, votes, [int(node.get("fence_delay", 0)) for node in nodes], flags["two_node"], waits, flags["last_man_standing"],
                    int(quorum.get("last_man_standing_window", 10000)), counted, expected,
                    tie_order(ids, quorum) if flags["auto_tie_breaker"] else None)


def tie_order(ids, quorum):
    """The ranks that break a tie, in the order in which they are tried."""
    order = quorum.get("auto_tie_breaker_node", "lowest")
    if order in ("lowest", "highest"):
        return [*range(len(ids))][:: 1 if order == "lowest" else -1]
    return [ids.index(int(word)) for word in order.split()]


# ---- sectors

def slot_sector(rank):
    return 1 + 2 * rank


def mail_sector(rank):
    return MAILBOXES + rank


def header_of(data):
    if data[:8] != b"QNSBD001" or data[8:10] != b"\0\2" or any(data[12:16]) or any(data[56:]):
        return DAMAGED
    nodes, times = struct.unpack(">H", data[10:12])[0], Times(*struct.unpack(">QQQQQ", data[16:56]))
    return Header(nodes, times) if 1 <= nodes <= 32 and all(1 <= time <= LONGEST for time in times) else DAMAGED


def is_safe(times):
    return 101 * (times.read_limit + 1 + times.watchdog + times.feed_delay) <= 99 * (times.msgwait - 1)


def slot_of(data, ident):
    number, incarnation, clean = struct.unpack(">LQB", data[4:17])
    return Slot(incarnation, clean == 1) if data[:4] == b"SLOT" and number == ident and clean < 2 and not any(data[17:]) else DAMAGED


def slot_bytes(ident, slot):
    return padded(b"SLOT" + struct.pack(">LQB", ident, slot.incarnation, slot.is_clean))


def mail_of(data):
    """The message of a mailbox."""
    code, ident, incarnation = data[4], *struct.unpack(">LQ", data[8:20])
    is_mail = data[:4] == b"MAIL" and code < len(MESSAGES) and not any(data[5:8]) and not any(data[20:]) and (ident or not incarnation)
    return MESSAGES[code] if is_mail else DAMAGED


def mail_bytes(message, ident=0, incarnation=0):
    return padded(b"MAIL" + struct.pack(">BxxxLQ", MESSAGES.index(message), ident, incarnation))


def padded(data):
    return data.ljust(SECTOR, b"\0")


# ---- packets

def ranks_of(mask):
    return tuple(rank for rank in range(32) if mask >> rank & 1)


def mask_of(ranks):
    return sum(1 << rank for rank in ranks)


def name_of(number):
    """The high byte of a view's number where it is a name, else 0."""
    high = number >> 56
    return high if 1 <= high <= 32 or high == NOBODY else 0


def plain_number(number):
    """The number of a view without its name."""
    return number % 2 ** 56 if name_of(number) else number


def packet_of(data):
    """What the bytes of a packet say, or None where they are none."""
    readers = {1: (33, ask_of), 2: (34, tell_of), 3: (4, plain_hello_of), 4: (16, announce_of), 5: (4, vote_of), 8: (12, hello_of),
               11: (16, announce_of), 12: (4, leave_of), 13: (5, word_of)}
    length, reader = readers.get(data[2] if data[:2] == b"QN" and len(data) > 3 else None, (0, None))
    return reader(data[3:], data[2]) if reader and len(data) == length else None


def ask_of(fields, _kind):
    sender, to, incarnation, install, number, members = struct.unpack(">BBQQQL", fields[:30])
    return Ask(sender, to, incarnation, install, View(number, ranks_of(members))) if max(sender, to) < 32 and members else None


def tell_of(fields, kind):
    ask, flags = ask_of(fields[:30], kind), fields[30]
    return Tell(*ask, flags & 1 == 1, flags & 2 == 2) if ask and flags < 4 else None


def plain_hello_of(fields, _kind):
    return PlainHello(fields[0]) if fields[0] < 32 else None


def announce_of(fields, kind):
    sender, number, members = struct.unpack(">BQL", fields)
    is_packet = sender < 32 and members and (kind == 11 or not name_of(number))
    return Announce(sender, View(number, ranks_of(members))) if is_packet else None


def vote_of(fields, _kind):
    return Vote(fields[0] == 1) if fields[0] < 2 else None


def hello_of(fields, _kind):
    sender, hears, follows, able, flags, weight = struct.unpack(">BLBBBB", fields)
    is_packet = sender < 32 and hears >> sender & 1 and follows <= 32 and able < 2
    return Hello(sender, ranks_of(hears), None if follows == 32 else follows, able == 1, flags, weight) if is_packet else None


def leave_of(fields, _kind):
    return Leave() if fields[0] == 1 else None


def word_of(fields, _kind):
    """What this host says of its node: other flags than barred, unfit and pull are none of its words."""
    return Word(*fields) if fields[0] < 8 else None


def packet_bytes(packet):
    """The bytes of a packet that a node sends."""
    if isinstance(packet, Ask):
        return b"QN\1" + asked_bytes(packet)
    if isinstance(packet, Tell):
        return b"QN\2" + asked_bytes(packet) + bytes([packet.holds + 2 * packet.released])
    if isinstance(packet, PlainHello):
        return b"QN\3" + bytes([packet.sender])
    if isinstance(packet, Announce):
        kind = 11 if name_of(packet.view.number) else 4
        return b"QN" + struct.pack(">BBQL", kind, packet.sender, packet.view.number, mask_of(packet.view.members))
    follows = 32 if packet.follows is None else packet.follows
    return b"QN\x08" + struct.pack(">BLBBBB", packet.sender, mask_of(packet.hears), follows, packet.able, packet.flags, packet.weight)


def asked_bytes(ask):
    return struct.pack(">BBQQQL", ask.sender, ask.to, ask.incarnation, ask.install, ask.view.number, mask_of(ask.view.members))
