"""Files and exports that a slip would destroy: `create` over what is there, by the words before it; `list`, `dump`, `message` and `migrate` of what is
absent; `--status` at what is no file, and at a link."""
import os
import pathlib
import subprocess

import live
from live import Cluster, same, try_all
from nbd import BlockServer

TOP = pathlib.Path(os.environ["TOP"])
ONE, TWO = ((TOP / "examples" / name).read_bytes() for name in ("one-node.conf", "two-node.conf"))
SECTORS = 544  # of an image of 32 nodes
IMAGE = "not blank: an image of %d nodes is there. quorumd --anew create .. writes over it"
ADVICE = "mend what the line before this one names"
OTHER = "not blank: no image is there, but something else. quorumd --anew create .. writes over it"
MADE = "nothing was there, and an empty file was made"
SHORT = "feed delay %d: a feed is given within %d ms only; a longer stall of the node resets its machine. Take 1000 or more"


def create(image, *before, settings=TWO, timing=None):
    """Status and output of a `create`, and what it said of the image, without what can be done about it."""
    words = [live.QUORUMD, *before, "create", "--image", str(image), *(["--timing", timing] if timing else [])]
    done = subprocess.run(words, input=settings, capture_output=True, check=False)
    return done.returncode, done.stdout.decode(), [line.removeprefix("quorumd: %s: " % image) for line in done.stderr.decode().splitlines() if ADVICE not in line]


CREATED, REFUSED = (0, "created nodes 2\n"), (8, "fault EnvFault\n")


def refused(what, image, held, why, *before):
    """It is refused, and says what is there; nothing changed."""
    was = held()
    same(what, create(image, *before), (*REFUSED, [why]))
    same("bytes: " + what, held(), was)


def sectors(data, of):
    """The sectors of these bytes that an image has something in: what else stands in its room, `create` leaves."""
    return {at: data[at:at + 512] for at in range(0, len(of), 512) if any(of[at:at + 512])}


def over(what, image, held, wanted, *before):
    """It is done, and what is there is the image."""
    same(what, create(image, *before), (*CREATED, []))
    same("bytes: " + what, sectors(held(), wanted), sectors(wanted, wanted))


def image_of(name, settings):
    """The bytes of an image."""
    path = pathlib.Path(name)
    create(path, settings=settings)
    return path.read_bytes()


IMAGE_1, IMAGE_2 = image_of("one", ONE), image_of("two", TWO)


def puts(held, size):
    """What may stand in a place of that size, and how `create` names it; None: nothing that it looks at."""
    end = SECTORS * 512
    for what, place, data, why in (
        ("an image", 0, IMAGE_1, IMAGE % 1), ("an image of version 1", 0, IMAGE_1[:9] + b"\1" + IMAGE_1[10:512], IMAGE % 1),
        ("another tool's header", 0, b"SBD_SBD_", OTHER), ("a byte at the beginning", 0, b"x", OTHER),
        ("a byte in the room of a slot", 64 * 512, b"x", OTHER), ("a byte at the end", end - 1, b"x", OTHER), ("a byte behind it", end, b"x", None),
    ):
        bytes_there = bytearray(max(size, place + len(data)))
        bytes_there[place:place + len(data)] = data
        held(bytes_there)
        yield what, why


def over_a_file():
    folder = pathlib.Path("file").absolute()
    folder.mkdir()
    path, wanted = folder / "disk", IMAGE_2
    for what, why in puts(path.write_bytes, 0):
        if why is None:
            over(what, path, path.read_bytes, wanted, "--blank")
            continue
        refused(what, path, path.read_bytes, why, "--blank")
        over("anew over " + what, path, path.read_bytes, wanted, *(("--blank", "--anew") if why == OTHER else ("--anew",)))
    for what, _ in puts(path.write_bytes, 0):
        over("without a word over " + what, path, path.read_bytes, wanted)
    path.write_bytes(b"")
    over("an empty file", path, path.read_bytes, wanted, "--blank")
    path.write_bytes(bytes(1 << 20))
    over("zeros", path, path.read_bytes, wanted, "--blank")
    path.unlink()
    same("absent", create(path, "--blank"), (*CREATED, [MADE]))
    same("bytes: absent", path.read_bytes(), wanted)


def over_a_server():
    path, wanted = pathlib.Path("server").absolute(), IMAGE_2
    server = BlockServer(path)

    def held(bytes_there=None):
        if bytes_there is not None:
            server.data[:len(bytes_there)] = bytes_there
            server.data[len(bytes_there):] = bytes(len(server.data) - len(bytes_there))
        return bytes(server.data)

    for what, why in puts(held, 1 << 20):
        if why is None:
            over(what, server.word(), held, wanted)
            continue
        refused(what, server.word(), held, why)
        over("anew over " + what, server.word(), held, wanted, "--anew")
    refused("with --blank", server.word(), held, IMAGE % 2, "--blank")
    held(bytes(1 << 20))
    over("zeros", server.word(), held, wanted)
    held(bytes(1 << 20))
    server.requests, server.fault = 0, lambda number: "error" if number == 300 else None
    same("a read that fails", create(server.word()), (*REFUSED, ["the server could not do it"]))
    same("bytes: a read that fails", held(), bytes(1 << 20))


def an_image_that_is_used():
    """A node has the image open: `create` is refused by its lock, whatever the words say."""
    cluster = Cluster("used", ids=(1,))
    node = cluster.node(1)
    node.waits_for("start: ok")
    for before in (), ("--blank",), ("--anew",):
        same(before, create(cluster.image, *before), (*REFUSED, ["another program has it open"]))
    cluster.message(1, "exit")
    same("the node", node.end(), (0, "left clean\n"))


def what_is_absent():
    folder = pathlib.Path("absent").absolute()
    folder.mkdir()
    for command in ("list",), ("dump",), ("message", "--id", "1", "--kind", "off"), ("migrate",):
        done = subprocess.run([live.QUORUMD, *command, "--image", str(folder / "disk")], capture_output=True, text=True, check=False)
        same(command, (done.returncode, done.stdout, done.stderr), (9, "fault BadImage sector 0\n", "quorumd: {0}: BadImage sector 0: quorumctl check --image {0} says what is there\n".format(folder / "disk")))
        same("files after %s" % (command,), list(folder.iterdir()), [])
    (folder / "link").symlink_to(folder / "other")
    same("a link to nothing", create(folder / "link"), (*REFUSED, ["File exists (os error 17)"]))
    same("where it leads", (folder / "other").exists(), False)


def a_short_feed_delay():
    for delay in 2, 500, 999, 1000:
        path = pathlib.Path("short-%d" % delay)
        path.write_bytes(b"")
        said = [SHORT % (delay, delay // 2)] if delay < 1000 else []
        same("feed delay %d" % delay, create(path, timing="5000,20000,1000,1000,%d" % delay), (*CREATED, said))


def status(path):
    """The end of a node that keeps that status file."""
    cluster = Cluster("status-%s" % pathlib.Path(path).name.replace(".", "-"), ids=(1,))
    words = [live.QUORUMD, "--status", str(path), "node", "--id", "1", "--image", str(cluster.image), "--watchdog", "watchdog", "--resource", "resource",
             "--port", str(cluster.port), "--turns", "20"]
    with open(cluster.folder / "conf") as settings:
        done = subprocess.run(words, stdin=settings, capture_output=True, text=True, cwd=cluster.folder, check=False)
    return done.returncode, done.stderr, (cluster.folder / "watchdog").exists()


def the_status_file():
    folder = pathlib.Path("status").absolute()
    folder.mkdir()
    (folder / "folder").mkdir()
    (folder / "target").write_text("target\n")
    (folder / "link").symlink_to(folder / "target")
    (folder / "to-nothing").symlink_to(folder / "nothing")
    os.mkfifo(folder / "pipe")
    (folder / "beside.new").symlink_to(folder / "target")
    (folder / "folder-beside.new").mkdir()
    for name in "folder", "link", "to-nothing", "pipe", "beside", "folder-beside":
        path = folder / name
        wanted = "quorumd: %s: the status file is neither absent nor a regular file\n" % path
        same(name, status(path), (2, wanted, False))
    same("a device", status("/dev/null")[0], 2)
    same("the device", pathlib.Path("/dev/null").is_char_device(), True)
    same("the target", (folder / "target").read_text(), "target\n")
    same("nothing", (folder / "nothing").exists(), False)
    (folder / "left.new").write_text("cut short")
    (folder / "left").write_text("of before")
    same("what a run left", status(folder / "left")[0], 0)
    same("it is replaced", (folder / "left").read_text()[0], "{")
    same("nothing beside it", (folder / "left.new").exists(), False)


try_all(over_a_file, over_a_server, an_image_that_is_used, what_is_absent, a_short_feed_delay, the_status_file)
