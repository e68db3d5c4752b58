"""For each command: a read of standard input fails after each of its bytes, a write of standard output after each byte that was
written, and a write of the image at each of its sectors. The faults are the system's own: a connection that its other end
resets, a limit of the size of a file, a full device, a pipe that nobody reads, a directory, and a stream that is closed."""
import os, pathlib, resource, shutil, signal, socket, subprocess, sys

PROGRAM, TOP = os.environ["QUORUMD"], pathlib.Path(os.environ["TOP"])
# the size of a file that a limited run may write
ROOM = 1 << 20

ADVICE = "mend what the line before this one names"  # a line that stands behind the system's words
DIRECTORY = "Is a directory (os error 21)"
CLOSED = "Bad file descriptor (os error 9)"
RESET = "Connection reset by peer (os error 104)"
TOO_LARGE = "File too large (os error 27)"
NO_SPACE = "No space left on device (os error 28)"
NO_READER = "Broken pipe (os error 32)"


def read(name):
    with open(name, "rb") as file:
        return file.read()


def run(words, stdin, stdout, limit=None, closes=()):
    """The status, and what stands on standard error."""
    def prepare():
        for stream in closes:
            os.close(stream)
        if limit is not None:
            signal.signal(signal.SIGXFSZ, signal.SIG_IGN)
            resource.setrlimit(resource.RLIMIT_FSIZE, (limit, limit))

    done = subprocess.run([PROGRAM, *words], stdin=stdin, stdout=stdout, stderr=subprocess.PIPE, preexec_fn=prepare,
                          timeout=60)
    lines = done.stderr.decode().splitlines(True)
    return done.returncode, "".join(line for line in lines if ADVICE not in line)


def want(words, where, got, wanted):
    if got != wanted:
        sys.exit("quorumd %s, %s:\nwanted %r\ngot    %r" % (" ".join(words), where, wanted, got))


def fresh():
    shutil.copyfile("image", "disk")


def whole(words, source, due=None):
    """What the command writes where nothing fails, on a fresh image. It is this text, where there is one; the texts of the other
    commands are those of other tests."""
    fresh()
    with open(source) as stdin, open("whole", "wb") as stdout:
        want(words, "where nothing fails", run(words, stdin, stdout), (0, ""))
    if due is not None:
        want(words, "where nothing fails", read("whole"), read(due))
    return read("whole")


def resets_after(content):
    """A source that has these bytes, and of which the next read fails."""
    reader, writer = socket.socketpair()
    reader.sendall(b"x")
    writer.sendall(content)
    writer.close()
    return reader


def fails_to_read(words, where, stdin, word, written, closes=()):
    fresh()
    with open("got", "wb") as stdout:
        got = run(words, stdin, stdout, closes=closes)
    want(words, where, got, (6, "quorumd: standard input: %s\n" % word))
    want(words, where, read("got"), written + b"fault ReadFault\n")
    want(words, where, read("disk"), read("image"))


def each_read_fails(words, source, due=None, answered=lambda content: 0):
    """`answered` says how many lines of the whole answer a prefix of the input has."""
    content, due = read(source), whole(words, source, due).splitlines(True)
    for count in range(len(content) + 1):
        with resets_after(content[:count]) as stdin:
            written = b"".join(due[:answered(content[:count])])
            fails_to_read(words, "where reading fails after %d bytes" % count, stdin, RESET, written)
    directory = os.open(".", os.O_RDONLY)
    fails_to_read(words, "of a directory", directory, DIRECTORY, b"")
    fails_to_read(words, "of a closed stream", directory, CLOSED, b"", closes=[0])
    os.close(directory)


def read_fails_after(content, status, answer):
    """What a replay says where the read after these bytes fails: a fault that stands in them is answered, and nothing is read after it."""
    fresh()
    with resets_after(content) as stdin, open("got", "wb") as stdout:
        got = run(["replay"], stdin, stdout)
    errors = {3: "%s: quorumctl settings < FILE shows its lines, and what they may say", 4: "%s: FORMATS.md of the documentation has the lines that may stand there",
              5: "%s: SCHEDULES.md of the documentation has the rules, by number", 6: RESET.replace("%", "%%") + "%.0s"}[status]
    errors = "quorumd: standard input: %s\n" % (errors % answer.decode().splitlines()[-1].removeprefix("fault "))
    want(["replay"], "where reading fails after %r" % content, (*got, read("got")), (status, errors, answer))


def fails_to_write(words, where, source, stdout, word, left, **how):
    fresh()
    with open(source) as stdin:
        got = run(words, stdin, stdout, **how)
    want(words, where, got, (7, "quorumd: standard output: %s\n" % word))
    want(words, where, read("disk"), left)


def each_write_fails(words, source, due=None):
    """Where the answer cannot be written, all else is done: the image is what it becomes."""
    due = whole(words, source, due)
    left = read("disk")
    for count in range(0, len(due), 1 + len(due) // 100):
        where = "where writing fails after %d bytes" % count
        with open("got", "wb") as stdout:
            stdout.truncate(ROOM - count)
            stdout.seek(ROOM - count)
            fails_to_write(words, where, source, stdout, TOO_LARGE, left, limit=ROOM)
        want(words, where, read("got")[ROOM - count:], due[:count])
    with open("/dev/full", "wb") as full:
        fails_to_write(words, "to a full device", source, full, NO_SPACE, left)
        fails_to_write(words, "to a closed stream", source, full, CLOSED, left, closes=[1])
    reader, writer = os.pipe()
    os.close(reader)
    fails_to_write(words, "to a pipe that nobody reads", source, writer, NO_READER, left)
    os.close(writer)


def each_sector_fails(words, source, due, left):
    """From each sector on, no sector of the image can be written. `left` says what then becomes of the image."""
    for sector in range(len(read("image")) // 512):
        where = "where sector %d of the image cannot be written" % sector
        fresh()
        reader, writer = os.pipe()
        with open(source) as stdin:
            got = run(words, stdin, writer, limit=512 * sector)
        os.close(writer)
        with os.fdopen(reader, "rb") as answer:
            want(words, where, answer.read(), b"fault EnvFault\n")
        want(words, where, got, (8, "quorumd: disk: %s\n" % TOO_LARGE))
        left(where, sector)


def views(content):
    return sum(line.startswith(b"view") for line in content.split(b"\n")[:-1])


def events(content):
    return max(0, content.partition(b"----\n")[2].count(b"\n") - 1)


def is_none(where, sector):
    """What creation left is no image, unless it could not write anything."""
    if sector == 0:
        return want(["create"], where, read("disk"), read("image"))
    with open("got", "wb") as stdout:
        want(["list"], where, run(["list", "--image", "disk"], subprocess.DEVNULL, stdout), (9, "quorumd: disk: BadImage sector 0: quorumctl check --image disk says what is there\n"))
    want(["list"], where, read("got"), b"fault BadImage sector 0\n")


def is_as_before(where, sector):
    want(["message"], where, read("disk"), read("image"))


NODE = b"nodelist {\nnode {\nnodeid: 1\n}\n}\n"
LEAVING = TOP / "examples" / "incidents" / "leaving"
WITHOUT_IMAGE_3 = TOP / "tests" / "cases" / "replay3" / "a-node-starts-without-image-3"
FILES = {
    "votes": b"node 1 1\nnode 2 1\nnode 3 1\nnode 4 1\nview 1 1,2\nview 2 1,2,3\n",
    "counted": b"view 1 votes 2 quorum 3 quorate no\nview 2 votes 3 quorum 3 quorate yes\nend 2\n",
    "schedule": read(LEAVING / "schedule"), "trace": read(LEAVING / "trace"),
    "schedule3": read(WITHOUT_IMAGE_3 / "stdin"), "trace3": read(WITHOUT_IMAGE_3 / "stdout"),
    "settings": NODE, "created": b"created nodes 1\n",
    "listed": b"node 1 incarnation 0 clean mail empty\n", "sent": b"sent off to 1\n",
}
TIMES = b"----\ntiming 5000 10000 1000 2000 1000\n"
COUNT = (["count"], "votes", "counted")
REPLAY = (["replay"], "schedule", "trace")
REPLAY3 = (["replay3"], "schedule3", "trace3")
STATUS = (["status"], "schedule")
STATUS_AS_JSON = (["status", "--form", "json"], "schedule")
SOAK = (["soak", "7", "20"], os.devnull)
CREATE = (["create", "--image", "disk"], "settings", "created")
DUMP = (["dump", "--image", "disk"], os.devnull)
LIST = (["list", "--image", "disk"], os.devnull, "listed")
MESSAGE = (["message", "--image", "disk", "--id", "1", "--kind", "off"], os.devnull, "sent")
HELP = (["help"], os.devnull)

for name, content in FILES.items():
    pathlib.Path(name).write_bytes(content)
with open("settings") as stdin, open("answer", "wb") as stdout:
    subprocess.run([PROGRAM, "create", "--image", "image"], stdin=stdin, stdout=stdout, stderr=subprocess.DEVNULL, check=True)
want(["create"], "of the image", read("answer"), read("created"))
each_read_fails(*COUNT, answered=views)
each_read_fails(*REPLAY, answered=events)
each_read_fails(*REPLAY3, answered=events)
for command in STATUS, STATUS_AS_JSON, CREATE:
    each_read_fails(*command)
for content in b"", b"x\n", b"x\n----", NODE, NODE + b"----\n", NODE + b"----\nt", NODE + TIMES, NODE + TIMES + b"x":
    read_fails_after(content, 6, b"fault ReadFault\n")
read_fails_after(b"x\n----\n", 3, b"fault BadConf BadLine line 1\n")
read_fails_after(NODE + b"----\nt\n", 4, b"fault BadSchedule line 7 UnknownWord\n")
read_fails_after(NODE + TIMES + b"x\n", 4, b"fault BadSchedule line 8 UnknownWord\n")
for command in COUNT, REPLAY, REPLAY3, STATUS, STATUS_AS_JSON, SOAK, CREATE, DUMP, LIST, MESSAGE, HELP:
    each_write_fails(*command)
each_sector_fails(*CREATE, left=is_none)
each_sector_fails(*MESSAGE, left=is_as_before)
