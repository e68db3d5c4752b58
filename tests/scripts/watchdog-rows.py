"""What a node and quorumctl make of what /sys says of a watchdog, in rows: its time, nowayout and magic close. The files of /sys are made, in a name space of mounts of its own;
the device is /dev/null, or one that is refused before it is opened, so nothing is armed."""
import os
import pathlib
import stat
import subprocess
import sys

import live
from live import Cluster, same, try_all

INSIDE = "WATCHDOG_ROWS_INSIDE"
TIME = "its time is %s s, the image says 5000 ms"
UNREAD = "its time cannot be read: perhaps it is no watchdog, and resets nothing"
NO_WAY_OUT = "nowayout is 1: also after a node that left, it resets the machine"
NO_MAGIC = "it has no magic close: it stops where the program is killed"

# timeout, nowayout, options (None: no such file): what is said, and whether a machine's node refuses it. The bit of magic close is 0x100 of options
# (linux/watchdog.h, WDIOF_MAGICCLOSE), and the time of the image is 5000 ms
ROWS = [
    (("5\n", "0\n", "0x8180\n"), None, False),
    (("1\n", "0\n", "0x8180\n"), None, False),
    (("5\n", None, None), None, False),
    (("5\n", "0\n", "0x100\n"), None, False),
    (("5\n", "0\n", "0x8b80\n"), None, False),
    (("5\n", "0\n", "0xf00\n"), None, False),
    (("6\n", "0\n", "0x8180\n"), TIME % 6, True),
    (("30\n", "0\n", "0x8180\n"), TIME % 30, True),
    (("5000\n", "0\n", "0x8180\n"), TIME % 5000, True),
    (("0\n", "0\n", "0x8180\n"), TIME % 0, True),
    (("18446744073709551615\n", "0\n", "0x8180\n"), TIME % 18446744073709551615, True),
    (("18446744073709551616\n", "0\n", "0x8180\n"), UNREAD, True),
    (("-1\n", "0\n", "0x8180\n"), UNREAD, True),
    (("five\n", "0\n", "0x8180\n"), UNREAD, True),
    (("\n", "0\n", "0x8180\n"), UNREAD, True),
    (("", "0\n", "0x8180\n"), UNREAD, True),
    ((None, "0\n", "0x8180\n"), UNREAD, True),
    (("5\n", "1\n", "0x8180\n"), NO_WAY_OUT, False),
    (("5\n", "1\n", "0x8080\n"), NO_WAY_OUT, False),  # it does not stop, also where it could not be told to
    (("6\n", "1\n", "0x8080\n"), TIME % 6, True),
    (("5\n", "0\n", "0x8080\n"), NO_MAGIC, True),
    (("5\n", None, "0x8080\n"), NO_MAGIC, True),
    (("5\n", "0\n", "0x0\n"), NO_MAGIC, True),
    (("5\n", "0\n", "0x8280\n"), NO_MAGIC, True),
    (("5\n", "0\n", "0x81"), NO_MAGIC, True),
    (("5\n", "0\n", "8180\n"), NO_MAGIC, True),
    (("5 \n", "0\n", "0x8180\n"), UNREAD, True),
    (("0x5\n", "0\n", "0x8180\n"), UNREAD, True),
    (("5\n", "0\n", "\n"), NO_MAGIC, True),
]


def said_of(folder, files):
    """Makes what /sys says in that folder."""
    folder.mkdir(parents=True, exist_ok=True)
    for name, text in zip(("timeout", "nowayout", "options"), files):
        path = folder / name
        path.unlink(missing_ok=True)
        if text is not None:
            path.write_text(text)


def run(cluster, before, device):
    words = [live.QUORUMD, *before, "node", "--id", "1", "--image", str(cluster.image), "--watchdog", str(device), "--resource", str(cluster.folder / "resource"),
             "--port", str(cluster.port), "--turns", "10", "--leave", "1"]
    with open(cluster.folder / "conf") as settings:
        done = subprocess.run(words, stdin=settings, capture_output=True, text=True, check=False)
    passed = "quorumd: node=", "quorumd: packets carry no seal"
    said = [line.removeprefix("quorumd: ") for line in done.stderr.splitlines() if not line.startswith(passed)]
    return done.returncode, done.stdout, said


def told(files, line, is_refused):
    """What quorumctl says of the device, which it does not open."""
    done = subprocess.run([os.environ["QUORUMCTL"], "watchdog", "/dev/null", "--watchdog", "5000"], capture_output=True, text=True, check=False)
    device = "" if line == UNREAD else "driver -, time %s s, nowayout %d: " % (files[0].strip(), files[1] == "1\n")
    same("%r told" % (files,), (done.returncode, done.stdout, done.stderr), (int(is_refused), device + (line or "good") + "\n", ""))


def without_time(files, line):
    """What is said where the time is judged beside none."""
    if line is None or "its time is" not in line:
        return line or []
    return next(said for other, said, _ in ROWS if other == ("5\n", *files[1:])) or []


def rows():
    cluster = Cluster("rows", ids=(1,), timing="5000,10000,1000,2000,1000")
    (cluster.folder / "resource").touch()
    for files, line, is_refused in ROWS:
        said_of(pathlib.Path("/sys/dev/char/1:3"), files)
        told(files, line, is_refused)
        wanted = [] if line is None else ["/dev/null: " + line]
        ends = (8, "fault EnvFault\n") if is_refused else (0, "left clean\n")
        same("%r with a word" % (files,), run(cluster, ["--open"], "/dev/null"), (*ends, wanted))
        if files[0] not in ("0\n", "18446744073709551615\n"):  # without a word it is opened before it is looked at, and its time beside none
            wanted = without_time(files, line)
            same("%r without" % (files,), run(cluster, [], "/dev/null"), (0, "left clean\n", wanted and ["/dev/null: " + wanted]))


def folders():
    """Where a device's files stand, by its number. Each device is refused, and not opened."""
    cluster = Cluster("folders", ids=(1,), timing="5000,10000,1000,2000,1000")
    (cluster.folder / "resource").touch()
    folder_of = {(10, 130): "class/watchdog/watchdog0", (10, 131): "dev/char/10:131", (249, 0): "dev/char/249:0", (300, 70000): "dev/char/300:70000", (4095, 1048575): "dev/char/4095:1048575"}
    for place, ((major, minor), folder) in enumerate(folder_of.items()):
        device = cluster.folder / ("device.%d" % place)
        os.mknod(device, 0o600 | stat.S_IFCHR, os.makedev(major, minor))
        said_of(pathlib.Path("/sys") / folder, ("%d\n" % (60 + place), "0\n", "0x8180\n"))
        same(folder, run(cluster, ["--open"], device), (8, "fault EnvFault\n", ["%s: %s" % (device, TIME % (60 + place))]))


if INSIDE not in os.environ:
    can = subprocess.run(["unshare", "-m", "mount", "-t", "tmpfs", "none", "/sys"], capture_output=True, check=False) if os.geteuid() == 0 else None
    if not can or can.returncode != 0:
        print("skipped: rows of /sys: this user has no name space of mounts")
        sys.exit(0)
    words = ["unshare", "-m", "sh", "-c", 'mount -t tmpfs none /sys && exec "$@"', "sh", sys.executable, "-B", *sys.argv]
    sys.exit(subprocess.call(words, env=dict(os.environ, **{INSIDE: "yes"})))
try_all(rows, folders)
