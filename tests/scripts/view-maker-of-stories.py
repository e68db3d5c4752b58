"""The view makers of stories, lib/members.py and lib/naming.py, over the rows from outside that the proved ones are run over."""
import os
import pathlib
import sys

TOP = pathlib.Path(os.environ["TOP"])
from members import NOBODY, PLAIN, Change, Member, Said, View, next_number, plain_number
from naming import NamingMember, Standing, standing_of

RANKS = 32
LOOP = 1000
LATE = 100 * LOOP  # a tick at which all is settled


def numbers_of(text):
    return () if text == "-" else tuple(map(int, text.split(",")))


def said_of(hears, follows, able):
    """What a Hello says; one that names each rank names everybody."""
    named = numbers_of(hears)
    return Said(PLAIN.hears if len(named) == RANKS else named, None if follows == "-" else int(follows), able == "yes")


def text_of(view):
    return "none" if view is None else "%d %s" % (view.number, ",".join(map(str, view.members)))


def list_of(ranks):
    return ",".join(map(str, ranks)) or "-"


def rank_text(rank):
    return "-" if rank is None else str(rank)


def yes(test):
    return "yes" if test else "no"


# ---- calls of a view maker, one after the other

def maker_of(count, me, loop, enough=None, votes=None):
    """A view maker; where nothing is said of votes, each node has one, and a majority is enough."""
    of_nodes = numbers_of(votes) if votes else (1,) * int(count)
    return Member(int(me), dict(enumerate(of_nodes)), int(enough) if enough else len(of_nodes) // 2 + 1, int(loop))


def answer(member, word, values):
    """What a call answers, as the row has it."""
    if word == "on_hello":
        tick, sender, *said = values
        if said:
            member.on_hello(int(tick), int(sender), said_of(*said))
        else:
            member.on_plain_hello(int(tick), int(sender))
        return "-"
    if word == "on_announce":
        member.on_announce(int(values[1]), View(int(values[2]), numbers_of(values[3])))
        return "-"
    if word == "on_tick":
        return text_of(member.look(int(values[0])))
    if word == "announces":
        return text_of(member.to_announce())
    if word == "hello_due":
        return yes(member.is_hello_due(int(values[0])))
    if word == "says":
        says = member.says
        return "%s %s %s" % (list_of(says.hears), rank_text(says.follows), yes(says.able))
    if word == "leads":
        return str(member.leader)
    sys.exit("a row of no kind: %s" % word)


def wrong_calls(rows):
    member = None
    for number, (call, wanted) in enumerate(rows, 1):
        word, *values = call.split(" ")
        if word == "new":
            member = maker_of(*values)
        elif answer(member, word, values) != wanted:
            yield "call %d: %s: not %s" % (number, call, wanted)


# ---- whom a leader names

def name_text(name):
    return "none" if name == 0 else "nobody" if name == NOBODY else str(name - 1)


def named(members, me, sees, hears, known, barred, unfit, pulls, holds, weights, present, greatest):
    """What a leader that knows this names in a view of these members, and the number of that view."""
    count, sees = hears.count(";") + 1, numbers_of(sees)
    member = NamingMember(int(me), dict.fromkeys(range(count), 1), 1, LOOP)
    flags = [numbers_of(ranks) for ranks in (barred, unfit, pulls, holds)]
    stands = {rank: Standing(*(rank in ranks for ranks in flags), False, weight) for rank, weight in enumerate(numbers_of(weights))}
    member.stands, member.standings = stands[int(me)], stands
    member.said = {rank: Said(sees if ranks == "*" else numbers_of(ranks), None, True) for rank, ranks in enumerate(hears.split(";"))}
    member.visible_now, member.known = sees, numbers_of(known)
    if present != "-":
        member.view = View(int(present) + 1 << 56, tuple(range(count)))
    name = member.name_for(numbers_of(members))
    return name_text(name), str(next_number(plain_number(int(greatest)), name))


def wrong_names(rows):
    for number, (*known, name, greatest, following) in enumerate(rows, 1):
        found = named(*known, greatest)
        if found != (name, following):
            yield "candidate %d: %s, not %s" % (number, found, (name, following))


# ---- the whole decision of a look

def stand_of(text):
    """What a node says of itself: flags without that of names, and a weight."""
    flags, weight = map(int, text.split("/"))
    return standing_of(flags + 32, weight)


def decision_of(me, votes, enough, hellos, own, present, greatest):
    """What a node that knows this says, follows and makes once all is settled."""
    member = NamingMember(int(me), dict(enumerate(numbers_of(votes))), int(enough), LOOP)
    member.stands = stand_of(own)._replace(keeps=False)
    for hello in hellos.split(";") if hellos != "-" else ():
        rank, hears, follows, able, stands = hello.split(":")
        member.on_hello(LATE, int(rank), said_of(hears, follows, able), None if stands == "-" else stand_of(stands))
    if present != "-":
        number, members = present.split(" ")
        member.view, member.installed = View(int(number), numbers_of(members)), 0
    member.greatest, member.first_look = plain_number(int(greatest)), 0
    company = member.note(LATE)
    said = [yes(member.says.able), yes(member.stands.keeps), rank_text(member.says.follows), str(member.leader)]
    if member.leader != member.ident:
        return said + ["-", "-", "-"]
    if member.change:
        member.change, member.differs = Change(company, 0, 0), dict.fromkeys(member.differs, 0)
    view = member.own_view(LATE, company)
    return said + [list_of(company), name_text(member.name_for(company)), "-" if view is None else str(view.number)]


def wrong_decisions(rows):
    for number, row in enumerate(rows, 1):
        found = decision_of(*row[:7])
        if found != row[7:]:
            yield "decision %d: %s, not %s" % (number, found, row[7:])


def rows_of(kind, least):
    found = [line.split("\t")[1:] for line in lines if line.startswith(kind + "\t")]
    if len(found) < least:
        sys.exit("%d rows of %s" % (len(found), kind))
    return found


lines = (TOP / "tests/program/qn_tests/stdin").read_text().splitlines()
wrong = [*wrong_calls(rows_of("maker", 4900)), *wrong_names(rows_of("candidate", 200)), *wrong_decisions(rows_of("decision", 75))]
if wrong:
    sys.exit("\n".join(wrong[:20]))
