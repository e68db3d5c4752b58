"""`quorumctl status` over files that are no status files: each is a line and keeps the cluster from being healthy, and what stands in a
file never reaches a terminal as it is. `--image` beside them, and `--watch`."""
import functools
import json
import os
import pathlib
import signal
import subprocess

from clusterfiles import QUORUMCTL, TOP, at, holder, node, now, same, status, write, written

WELL = [holder(1), node(2), node(3)]
HEAD = " node phase    holds quorate votes  view           mail         age  why\n"


def key_wrong(key):
    return "the key %s is missing or of another type" % key


def bytes_of(made):
    return json.dumps(at(now(), made)).encode()


def without(key):
    """The bytes of a status file without that key."""
    return json.dumps({name: value for name, value in at(now(), node(3)).items() if name != key}).encode()


def other(key, value):
    """The bytes of a status file with that value of a key."""
    return json.dumps({**at(now(), node(3)), key: value}).encode()


def at_fault():
    """The bytes of files, and what is said of each."""
    long = b" " * 65536
    rows = [(b"", "it is no JSON"), (b"{", "it is no JSON"), (bytes_of(node(3))[:-1], "it is no JSON"), (b"\xff{}", "it is no JSON"),
            (b"[" * 60000, "it is no JSON"), (b"\0", "it is no JSON"), (bytes_of(node(3)) + b"x", "it is no JSON"),
            (b"[]", key_wrong("format")), (b"null", key_wrong("format")), (b"1", key_wrong("format")), (b"{}", key_wrong("format")),
            (other("format", 2), "format 2 is not known"), (other("format", 0), "format 0 is not known"),
            (bytes_of(node(3)) + long, "it has more than 65536 bytes"), (long * 40, "it has more than 65536 bytes")]
    for key in node(3):
        rows.append((without(key), key_wrong(key)))
        rows.append((other(key, {}), key_wrong(key)))
        rows.append((other(key, [0]), key_wrong(key)))
    for key, values in (("id", [0, 4294967296, "3", -1, 1.5, None]), ("tick", [-1, 1.5, "1", 2 ** 64, None]), ("votes", [None, "3"]),
                        ("loop", [3600001, None, -1]), ("holds", [0, "yes", None]), ("phase", ["Up", "", None, "gone"]), ("why", [None, 1]),
                        ("mail", ["Reset", None, "", 0]), ("view", [1, {"id": 1}, {"id": 1, "members": [0]}, {"id": 1, "members": ["1"]}]),
                        ("peers", [None, [{"id": 2}], [{"hello_tick": "x", "id": 2}], [{"hello_tick": None, "id": 0}]]), ("end", [1, True]),
                        ("incarnation", ["1", -1]), ("mail_by", [0, "2", 4294967296]), ("time", ["1", None])):
        rows += [(other(key, value), key_wrong(key)) for value in values]
    return rows


def try_files():
    paths = written(WELL)
    bad = pathlib.Path("bad.json")
    for number, (data, why) in enumerate(at_fault()):
        bad.write_bytes(data)
        for path in paths:
            write(path, WELL[paths.index(path)])
        ended, text, errors = status(bad, *paths)
        same((ended, text.splitlines()[0], text.splitlines()[-1], errors),
             (1, "quorumd degraded: 1 holds; bad.json: " + why, "    ? bad.json: " + why, ""), "file %d, %r" % (number, data[:200]))
        same(status(bad), (3, "quorumd unknown: no node answers\n" + HEAD + "    ? bad.json: %s\n" % why, ""), "file %d alone" % number)
    wanted = {"error": why, "id": None, "path": "bad.json", "stale": True}
    same(json.loads(status("--json", bad)[1]), {"nodes": [wanted], "said": "no node answers", "state": "unknown"}, "JSON")
    same(status("--prometheus", bad)[1].count("node="), 0, "metrics")
    # what is no file
    os.mkfifo("pipe")
    pathlib.Path("folder").mkdir()
    for path, why in (("pipe", "it is no file"), ("folder", "it is no file"), ("/dev/zero", "it is no file"),
                      ("absent", "No such file or directory (os error 2)")):
        same(status(path)[1].splitlines()[-1], "    ? %s: %s" % (path, why), path)


def try_good():
    """Files at the edge of what is taken."""
    path = pathlib.Path("edge.json")
    data = bytes_of(holder(1, ids=(1,)))
    for made in (data + b" " * (65536 - len(data)), json.dumps({**at(now(), holder(1, ids=(1,))), "zeta": {"id": [1]}, "format": 1}).encode()):
        path.write_bytes(made)
        same(status(path)[:1], (0,), "%d bytes" % len(made))
    many = list(range(4294967264, 4294967296))
    write(path, holder(many[-1], ids=tuple(many), votes=4194239, quorum=2097120))
    silent = "".join("; %d tells nothing" % other for other in many[:-1])
    same(status(path)[1].splitlines()[0], "quorumd degraded: 4294967295 holds" + silent, "32 nodes of long ids")


def try_texts():
    """What stands in a file, and its path, is written escaped."""
    evil = "\x1b[2J\n\x9b1m\\ \u00e9\u202e\U0001f600\x7f\"'"
    shown = "\\u{1b}[2J\\n\\u{9b}1m\\\\ \\u{e9}\\u{202e}\\u{1f600}\\u{7f}\"'"
    path = pathlib.Path("a\x1b\n.json")
    write(path, node(1, ids=(1,), why=evil))
    ended, text, _ = status(path)
    same((ended, text.splitlines()[0], text.splitlines()[2].endswith("s  " + shown)), (2, "quorumd no owner", True), "why")
    same(len(text.splitlines()), 3, "lines")
    same(json.loads(status("--json", path)[1])["nodes"][0]["why"], evil, "why in JSON")
    same([line for line in status("--json", path)[1].encode() if line > 126 or line < 32 and line != 10], [], "bytes of JSON")
    write(path, node(1, ids=(1,), name=evil, mail="exit"))
    same(status(path)[1].splitlines()[0], "quorumd no owner: %s has mail exit" % shown, "name")
    label = evil.replace("\\", "\\\\").replace('"', '\\"').replace("\n", "\\n")
    same('{node="1",name="%s"} ' % label in status("--prometheus", path)[1], True, "a label")
    write(path, node(1, ids=(1,), end=evil))
    paths = written([holder(2, ids=(2,))])
    same(status(path, *paths)[1].splitlines()[0], "quorumd degraded: 2 holds; 1 ended: " + shown, "end")
    path.write_bytes(b"")
    same(status(path)[1].splitlines()[-1], "    ? a\\u{1b}\\n.json: it is no JSON", "path")


def try_image():
    """`--image` beside files: a line for each slot and mailbox."""
    conf = (TOP / "examples" / "two-node.conf").read_bytes()
    subprocess.run([os.environ["QUORUMD"], "create", "--image", "disk"], input=conf, stdout=subprocess.PIPE, stderr=subprocess.PIPE, check=True)
    subprocess.run([os.environ["QUORUMD"], "message", "--image", "disk", "--id", "2", "--kind", "off"], stdout=subprocess.PIPE, check=True)
    paths = written([holder(1, ids=(1, 2), votes=2, quorum=1, expected=2)])
    ended, text, errors = status("--image", "disk", *paths)
    same((ended, text.splitlines()[-2:], errors), (1, ["node 1 slot clean, incarnation 0, mail empty",
                                                       "node 2 no file; slot clean, incarnation 0, mail off"], ""), "image")
    parsed = json.loads(status("--json", "--image", "disk", *paths)[1])
    same(parsed["image"], json.loads(subprocess.run([QUORUMCTL, "list", "--image", "disk", "--json"], stdout=subprocess.PIPE, check=True).stdout), "image")
    with open("disk", "r+b") as image:
        image.seek(512)
        image.write(b"SLOP")
    same(status("--image", "disk", *paths)[1].splitlines()[-2], "node ? slot ?, mail empty", "a slot that is none")
    pathlib.Path("none").write_bytes(b"no image")
    for path, why in (("none", "it is no image"), ("absent", "No such file or directory (os error 2)")):
        ended, text, _ = status("--image", path, *paths)
        same((ended, text.splitlines()[0]), (1, "quorumd degraded: 1 holds; %s: %s; 2 tells nothing" % (path, why)), "the image %s" % path)


def try_watch():
    """`--watch` erases and writes again, sees a file that changed, and ends at an interrupt without a word."""
    path, = written([holder(1, ids=(1,), votes=1, quorum=1)])
    # a shell has what it starts in the background ignore an interrupt
    heeds = functools.partial(signal.signal, signal.SIGINT, signal.SIG_DFL)
    words = [QUORUMCTL, "status", "--watch", path]
    with subprocess.Popen(words, stdout=subprocess.PIPE, stderr=subprocess.PIPE, preexec_fn=heeds) as watch:
        got = b""
        while got.count(b"\x1b[H\x1b[J") < 2:
            got += watch.stdout.read1()
        write(path, node(1, ids=(1,), why="clear"))
        while b"quorumd no owner" not in got:
            got += watch.stdout.read1()
        watch.send_signal(signal.SIGINT)
        rest, errors = watch.communicate()
    same((watch.returncode, errors), (-signal.SIGINT, b""), "an interrupt")
    texts = (got + rest).split(b"\x1b[H\x1b[J")
    same((texts[0], texts[1].splitlines()[0]), (b"", b"quorumd healthy: 1 holds (no group)"), "the first text")
    # standard output that nobody reads any more, and one that is full
    with open("/dev/full", "wb") as full:
        done = subprocess.run([QUORUMCTL, "status", path], stdout=full, stderr=subprocess.PIPE, check=False)
    same((done.returncode, done.stderr), (3, b"quorumctl: standard output: No space left on device (os error 28)\n"), "a full disk")


try_files()
try_good()
try_texts()
try_image()
try_watch()
