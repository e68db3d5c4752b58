"""`quorumctl history` over journals that were written by hand: each sentence, the order where a clock was set back, and what is passed over."""
import pathlib

from clusterfiles import quorumctl, same

DAY = "1970-01-01 00:00:"


def line(node, seconds, event, words=""):
    return "quorumd: node=%s tick=7 time=%s level=5 event=%s %s" % (node, seconds, event, words)


# the words of an event, and what is told of it
TOLD = [
    ("claimed", "incarnation=7", "node 3 booted as incarnation 7"),
    ("quorum-won", "quorate=yes votes=3 quorum=2 expected=3", "node 3 has a quorum: 3/2"),
    ("quorum-lost", "quorate=no votes=1 quorum=2 expected=3", "node 3 lost its quorum: 1/2"),
    ("peer-seen", "id=4294967295", "node 3 hears node 4294967295"),
    ("peer-lost", "id=1 silent=3016", "node 3 hears node 1 no more"),
    ("device", "answer=no view=7", "the arbiter answered node 3 no in view 7"),
    ("device-silent", "age=10013", "node 3 hears nothing of its arbiter, for 10013 ms"),
    ("image-lost", "image=2", "node 3 lost image 2"),
    ("image-back", "image=2", "node 3 has image 2 again"),
    ("fence-written", "of=1 ok=yes msgwait=10000", "node 3 fenced node 1: reset written, ok=yes, msgwait 10000 ms"),
    ("fence-written", "of=1 ok=no msgwait=10000", "node 3 fenced node 1: reset written, ok=no, msgwait 10000 ms"),
    ("licence", "of=2 by=clean-slot", "node 3 read node 2 as cleanly stopped"),
    ("hold-won", "", "node 3 holds the resource"),
    ("hold-lost", "", "node 3 holds it no more"),
    ("start", "ok=yes", None),
    ("stop", "ok=yes", None),
    ("start", "ok=no", "node 3 failed to start the resource"),
    ("stop", "ok=no", "node 3 failed to stop the resource"),
    ("stop", "ok=yes count=58", "node 3 stopped the resource after 58 stops that failed"),
    ("mail", "message=exit by=operator", "node 3 read exit from operator"),
    ("mail", "message=reset by=2 by-incarnation=9", "node 3 read reset from 2 (incarnation 9)"),
    ("halt", "cause=boot-4", "node 3 ended: boot-4"),
    ("end", 'end="left clean"', "node 3 ended: left clean"),
    ("end", 'end="turns 100 up holds=yes quorate=yes 1/1 expected=1 released=yes why=holding"',
     "node 3 ended: turns 100 up holds=yes quorate=yes 1/1 expected=1 released=yes why=holding"),
    ("end", 'end="fault ClockBack 2 1"', "node 3 ended: fault ClockBack 2 1"),
    # the halt before it has told it
    ("end", 'end="fault SelfReset reset"', None),
    ("end", 'end="fault BootHalted 4"', None),
    # what is not told
    ("view", "view=1 members=1,2,3 quorate=yes votes=3 quorum=2 expected=3", None),
    ("why", "why=not-chosen:1", None),
    ("", "", None),
    ("reborn", "incarnation=7", None),
    # a key is missing, another one is not known, and one has blanks and signs in its value
    ("claimed", "", None),
    ("mail", "message=exit", None),
    ("claimed", 'zeta="event=halt cause=off" incarnation=7 eta=1', "node 3 booted as incarnation 7"),
    ("mail", 'message="a b=c" by=operator', "node 3 read a b=c from operator"),
    ("mail", "message=\x1b[2J by=\u00e9\\", "node 3 read \\u{1b}[2J from \\u{e9}\\\\"),
    # %XX in a value is the byte of these digits, and what it says is shown as any other text
    ("claimed", "incarnation=7 name=db%201", "node 3 (db 1) booted as incarnation 7"),
    ("claimed", "incarnation=7 name=db%25201", "node 3 (db%201) booted as incarnation 7"),
    ("claimed", "incarnation=7 name=a%22b%3D%25", 'node 3 (a"b=%) booted as incarnation 7'),
    ("claimed", "incarnation=7 name=r\u00e4ck%25", "node 3 (r\\u{e4}ck%) booted as incarnation 7"),
    ("end", 'end="left %25 =%7F"', "node 3 ended: left % =\\u{7f}"),
    ("mail", "message=%1B[2J by=operator", "node 3 read \\u{1b}[2J from operator"),
    # a value in which it is no byte, or which is no text, stands as it is; so does one that no line has room for
    ("mail", "message=a%2 by=%zz", "node 3 read a%2 from %zz"),
    ("mail", "message=% by=%2f", "node 3 read % from %2f"),
    ("mail", "message=%FF by=x%25", "node 3 read %FF from x%"),
    ("mail", "message=%s by=%s" % ("%25" * 128, "%25" * 129), "node 3 read %s from %s" % ("%" * 128, "%25" * 129)),
]

# lines that no node wrote, or not so
OTHERS = ["", "quorumd: disk: Permission denied (os error 13)", "quorumd: node=", "quorumd: node=1", "quorumd: node=x tick=1 time=1.000 level=5 event=hold-won",
          "quorumd: node=1 tick=1 time=1 level=5 event=hold-won", "quorumd: node=1 tick=1 time=1.00 level=5 event=hold-won",
          "quorumd: node=1 tick=1 time=1.0000 level=5 event=hold-won", "quorumd: node=1 tick=1 time=-1.000 level=5 event=hold-won",
          "quorumd: node=1 tick=1 level=5 event=hold-won", "quorumd: node=1 tick=1 time=1.000 level=5", 'quorumd: node=1 tick="1 time=1.000 level=5 event=hold-won',
          "quorumd: node=1 tick=1 time=99999999999999999999.000 level=5 event=hold-won", "quorumd: node=1 tick=1 time=9999999999999.000 level=5 event=hold-won",
          "x" * 5000 + " " + line(1, "1.000", "hold-won")]


def told(*journals):
    """What is told of journals, each a list of lines."""
    paths = []
    for number, lines in enumerate(journals):
        paths.append(pathlib.Path("journal.%d" % number))
        paths[-1].write_text("".join(each + "\n" for each in lines))
    status, text, errors = quorumctl("history", *paths)
    same((status, errors), (0, ""), "history of %r" % (journals,))
    return text.splitlines()


for event, words, sentence in TOLD:
    wanted = [] if sentence is None else [DAY + "01.250  " + sentence]
    same(told([line(3, "1.250", event, words).rstrip()]), wanted, "%s %s" % (event, words))
    same(told(["<5>" + line(3, "1.250", event, words)]), wanted, "%s %s behind a level" % (event, words))
same(told(OTHERS), [], "lines of others")
# the order of time, and of one journal also where the clock was set back; a node in two journals is in the order of each
first = [line(1, "10.000", "hold-won"), line(1, "2.000", "hold-lost"), line(2, "3.000", "hold-won"), line(1, "4.000", "claimed", "incarnation=2"),
         line(1, "11.000", "hold-won")]
second = [line(1, "1.000", "claimed", "incarnation=1"), line(3, "10.000", "hold-lost")]
same(told(first, second), [DAY + "01.000  node 1 booted as incarnation 1", DAY + "03.000  node 2 holds the resource", DAY + "10.000  node 1 holds the resource",
                           DAY + "02.000  node 1 holds it no more", DAY + "04.000  node 1 booted as incarnation 2", DAY + "10.000  node 3 holds it no more",
                           DAY + "11.000  node 1 holds the resource"], "order")
same(told([]), [], "nothing")
same(told([line(1, "4102444799.999", "hold-won")]), ["2099-12-31 23:59:59.999  node 1 holds the resource"], "a date")
# files that cannot be read
same(quorumctl("history", "absent"), (8, "", "quorumctl: absent: No such file or directory (os error 2); look at the path, and whether its file system is mounted\n"), "absent")
pathlib.Path("folder").mkdir()
same(quorumctl("history", "folder"), (8, "", "quorumctl: folder: Is a directory (os error 21); name a file in it\n"), "a folder")
