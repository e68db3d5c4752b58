"""What quorumctl and quorumd-setup say of an image on a block server, in an etcd cluster and with places of 4096 bytes: the same as of a file with the same
sectors. They write nothing there, and make an image only where a server gives sectors that are none."""
import os
import pathlib
import subprocess
import threading
import time

import etcd
import live
from live import Wrong, same, try_all, without_advice
from nbd import BlockServer

TOP = pathlib.Path(os.environ["TOP"])
QUORUMCTL = os.environ["QUORUMCTL"]
CONF = TOP / "examples" / "two-node.conf"
OTHER = TOP / "examples" / "one-node.conf"
# what is said besides of an image in a cluster: its watchdog's time is 5 s, and 9 s may pass without a leader
ELECTION = ("warning: an election of etcd may take 9000 ms, and the watchdog's time is 5000 ms: each node is reset then. "
            "Give each member --pre-vote, or the image longer times\n")
HOST = etcd.servers()[0].host if etcd.is_there() else None


def ran(words, stdin=subprocess.DEVNULL):
    done = subprocess.run([str(word) for word in words], stdin=stdin, capture_output=True, check=False)
    return done.returncode, done.stdout.decode(), without_advice(done.stderr.decode())


def quorumd(command, image, *words):
    with open(CONF) as conf:
        return ran([live.QUORUMD, command, "--image", image, *words], conf)


def looks(image):
    """All that quorumctl says of an image."""
    said = [ran([QUORUMCTL, "list", "--image", image]), ran([QUORUMCTL, "list", "--image", image, "--json"]), ran([QUORUMCTL, "check", "--image", image])]
    for conf in CONF, OTHER:
        with open(conf) as text:
            said.append(ran([QUORUMCTL, "check", "--image", image], text))
    said.append(ran([QUORUMCTL, "wait", "--image", image, "--id", "7"]))
    return said


def everywhere():
    """An image in each place."""
    file, server = pathlib.Path("file").absolute(), BlockServer(pathlib.Path("server").absolute())
    long = BlockServer(pathlib.Path("long").absolute(), size=8 << 20, least=4096)
    places = {"file": file, "file@4096": "%s@4096" % pathlib.Path("file4096").absolute(), "server": server.word(), "server@4096": long.word() + "@4096"}
    if HOST:
        places["cluster"] = "etcd:%s/companion" % HOST
    else:
        print("skipped: no etcd (Debian: etcd-server)")
    return places, server


def same_everywhere():
    places, server = everywhere()
    for image in places.values():
        same("create", quorumd("create", image)[:2], (0, "created nodes 2\n"))
    for words in (), ("message", "--id", "2", "--kind", "off"), ("message", "--id", "1", "--kind", "exit"):
        for image in places.values():
            if words:
                same("message", quorumd(words[0], image, *words[1:])[0], 0)
        written = len(server.lasting)
        wanted = looks(places["file"])
        same("the nodes of the file", (wanted[0][0], wanted[0][1].count("node ")), (0, 2))
        for name, image in places.items():
            same("said of the %s after %r" % (name, words), [(status, text.replace(ELECTION, ""), errors) for status, text, errors in looks(image)], wanted)
        if HOST:
            status, text, _ = ran([QUORUMCTL, "check", "--image", places["cluster"]])
            same("the times of the cluster", (status, text.count(ELECTION)), (0, 1))
        same("writes", len(server.lasting), written)


def bytes_behind():
    """More bytes than the image takes are told of a file, by how far apart its sectors stand, and are as they should be on a server."""
    for name, stride in ("short", 512), ("far@4096", 4096):
        image = "%s" % pathlib.Path(name).absolute()
        same("create", quorumd("create", image)[0], 0)
        path = pathlib.Path(name.removesuffix("@4096"))
        for more in 0, 1, 5000:
            os.truncate(path, (512 + 2) * stride + more)
            wanted = (4, "%d bytes stand behind the image" % more) if more else (0, "")
            status, said, _ = ran([QUORUMCTL, "check", "--image", image])
            same("%s and %d bytes" % (name, more), (status, said.splitlines()[-1].partition(": ")[2] if more else ""), wanted)


def waits():
    """`wait` sees a message go, wherever the image is."""
    places, _ = {"server": BlockServer(pathlib.Path("waits").absolute()).word()}, None
    if HOST:
        places["cluster"] = "etcd:%s/waits" % HOST
    for name, image in places.items():
        same("create", quorumd("create", image)[0], 0)
        same("message", quorumd("message", image, "--id", "2", "--kind", "test")[0], 0)
        clear = threading.Timer(1, quorumd, ("message", image, "--id", "2", "--kind", "clear"))
        clear.start()
        start = time.monotonic()
        same("wait on a " + name, ran([QUORUMCTL, "wait", "--image", image, "--id", "2"]), (0, "the mailbox is empty\n", ""))
        if time.monotonic() - start < 0.8:
            raise Wrong("it did not wait on a " + name)
        clear.join()


def no_images():
    """A server that is away, one that fails, and one that gives no image."""
    away = "nbd:unix:%s" % pathlib.Path("away").absolute()
    for command in "list", "check":
        same("away", ran([QUORUMCTL, command, "--image", away]), (8, "", "quorumctl: %s: No such file or directory (os error 2); look at the path, and whether its file system is mounted\n" % away))
        same("nobody", ran([QUORUMCTL, command, "--image", "etcd:127.0.0.1:1/x"]), (8, "", "quorumctl: etcd:127.0.0.1:1/x: Connection refused (os error 111); start its server, or name the port that it has\n"))
        same("no word", ran([QUORUMCTL, command, "--image", "nbd:x"]), (8, "", "quorumctl: nbd:x: no address and port of a block server\n"))
    blank = BlockServer(pathlib.Path("blank").absolute())
    same("blank", ran([QUORUMCTL, "list", "--image", blank.word()]), (1, "fault: sector 0 is no header: the file is no image\n", ""))
    failing = BlockServer(pathlib.Path("failing").absolute(), fault=lambda number: "error")
    same("failing", ran([QUORUMCTL, "list", "--image", failing.word()]), (1, "fault: sector 0 cannot be read\n", ""))


def setup():
    """quorumd-setup makes the image of a server that gives none, and none on a server that cannot be read."""
    room = pathlib.Path("setup").absolute()
    for folder in "calls", "etc/quorumd":
        (room / folder).mkdir(parents=True)
    for name, program in ("quorumd", live.QUORUMD), ("quorumctl", QUORUMCTL):
        (room / "calls" / name).symlink_to(program)
    (room / "etc/quorumd/node.env").write_bytes((TOP / "packaging/node.env").read_bytes())
    environment = dict(os.environ, PATH="%s:%s" % (room / "calls", os.environ["PATH"]), QUORUMD_ETC=str(room / "etc"), QUORUMD_HELPERS=str(TOP / "packaging"))

    def sets_up(image, *words):
        words = [TOP / "packaging" / "quorumd-setup", CONF, "--id", "2", "--image", image, *words]
        done = subprocess.run(words, stdin=subprocess.DEVNULL, capture_output=True, check=False, env=environment)
        return done.returncode, (done.stdout or done.stderr).decode().splitlines()[-1]

    images = [BlockServer(room / "server").word()] + (["etcd:%s/setup" % HOST] if HOST else [])
    done = "node 2 of %s is set up: systemctl enable --now quorumd@2.service" % CONF
    for image in images:
        same("nothing there", sets_up(image), (1, "quorumd-setup: %s is not there: --create on one host makes it" % image))
        same("made", sets_up(image, "--create"), (0, done))
        same("message", quorumd("message", image, "--id", "2", "--kind", "test")[0], 0)
        same("a second time", sets_up(image, "--create"), (0, done))
        same("the message stands", " mail test" in ran([QUORUMCTL, "list", "--image", image])[1], True)
        text = (room / "etc/quorumd/node-2.env").read_text()
        same("node-2.env", ("\nIMAGE=%s\n" % image in text, "\nCOMMAND=node\n" in text), (True, True))
        mounts = room / "etc/systemd/system/quorumd@2.service.d/setup.conf"
        same("mounts", "RequiresMountsFor" in mounts.read_text(), False)
        for path in room / "etc/quorumd/node-2.env", mounts:
            path.unlink()
    failing = BlockServer(room / "failing", fault=lambda number: "error")
    why = "quorumd-setup: %s is no image of %s: another path, or all nodes off and the file away" % (failing.word(), CONF)
    same("a server that fails", sets_up(failing.word(), "--create"), (1, why))
    same("its bytes", bytes(failing.data), bytes(len(failing.data)))


try_all(same_everywhere, bytes_behind, waits, no_images, setup)
