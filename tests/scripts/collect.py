"""quorumd-collect over the folders of a host that this test makes, with journalctl and systemctl of its own: what the archive has, that no key and no password
is in it, in whatever form, that `quorumctl history` reads the journals of several archives, and what becomes of bad input, a limit and an interruption."""
import base64
import os
import pathlib
import secrets
import signal
import subprocess
import tarfile
import time

from clusterfiles import TOP, holder, node, write

SCRIPT = TOP / "contrib" / "quorumd-collect"
JOURNALS = TOP / "examples" / "journals" / "take-over"
KEY = secrets.token_bytes(64)
PASSWORD = "correct-horse-7"

# It gives the lines of one node, as journald shows them; of a time that it does not know it says what the real one says. A file `slow` has it wait.
JOURNALCTL = """#!/bin/sh
case "$*" in *--since=rubbish*) echo 'Failed to parse timestamp: rubbish' >&2; exit 1 ;; esac
case "$*" in
*--lines=0*) ;;
*--unit=quorumd*) [ ! -e {room}/slow ] || sleep 60; sed 's/^/2026-11-28T21:03:57.700000+0000 db1 quorumd-1[77]: /' {journal} ;;
*--dmesg*) echo 'db1 kernel: watchdog0: armed' ;;
*--list-boots*) echo ' 0 the boot' ;;
esac
"""


def demand(holds, what):
    if not holds:
        raise SystemExit("wrong: %s" % what)


def same(got, wanted, what):
    demand(got == wanted, "%s: %r, wanted %r" % (what, got, wanted))


def program(folder, name, text):
    (folder / name).write_text(text)
    (folder / name).chmod(0o755)


def made_host(room, ident):
    """A host of a cluster, and what the script needs to find it."""
    etc, run, state, path = (room / name for name in ("etc/quorumd", "run/quorumd", "state", "bin"))
    for folder in (etc, etc / "arbiter" / "other", run, state, path, room / "temporary"):
        folder.mkdir(parents=True)
    (etc / "corosync.conf").write_text((TOP / "examples" / "two-node.conf").read_text())
    (etc / "key").write_bytes(KEY)
    (etc / "arbiter" / "other" / "key").write_bytes(KEY[::-1])
    (room / "elsewhere").write_bytes(KEY[32:] + KEY[:32])
    (etc / ("node-%d.env" % ident)).write_text("EDGE=--links /etc/quorumd/corosync.conf --key %s\nCOMMAND=node\nIMAGE=%s\n" % (room / "elsewhere", room / "disk"))
    (etc / "resources.conf").write_text("[address]\nagent = ocf:heartbeat:IPaddr2\nip = 192.0.2.10\n[other]\nagent = ocf:x:y\nadmin_password = %s\nsecret=%s\n" % (PASSWORD, PASSWORD))
    os.link(etc / "key", etc / "node-9.env")
    (run / "node-7").write_text("the record of a node\n")
    (run / "failures").write_text("a key by another name: %s\n%s\n" % (KEY.hex()[:60], KEY.hex()[60:]))
    (run / "handovers").write_text(base64.encodebytes(KEY).decode())
    (state / "halted-1").write_text("fault BootHalted 3\n")
    write(run / ("node-%d.json" % ident), holder(ident) if ident == 1 else node(ident))
    with open(etc / "corosync.conf", "rb") as settings:
        subprocess.run([os.environ["QUORUMD"], "create", "--image", room / "disk"], stdin=settings, stdout=subprocess.DEVNULL, stderr=subprocess.DEVNULL, check=True)
    program(path, "journalctl", JOURNALCTL.format(room=room, journal=JOURNALS / ("node-%d" % ident)))
    program(path, "systemctl", "#!/bin/sh\necho quorumd@1.service active\n")
    program(path, "quorumd-resource", "#!/bin/sh\necho group runs -\n")
    for name in ("quorumd", "quorumctl"):
        (path / name).symlink_to(os.environ[name.upper()])
    return dict(os.environ, QUORUMD_ETC=str(room / "etc"), QUORUMD_RUN=str(room / "run"), QUORUMD_STATE=str(state), TMPDIR=str(room / "temporary"),
                PATH="%s:%s" % (path, os.environ["PATH"]))


def collected(environment, *words, **more):
    done = subprocess.run([SCRIPT, *map(str, words)], env=environment, stdin=subprocess.DEVNULL, stdout=subprocess.PIPE, stderr=subprocess.PIPE, check=False, timeout=60, **more)
    return done.returncode, done.stdout.decode(), done.stderr.decode()


def files_of(archive):
    """The files of an archive by their names below its folder."""
    with tarfile.open(archive) as tar:
        members = [member for member in tar if member.isfile()]
        demand(all(member.mode == 0o644 and member.uid == 0 for member in members), "whoever unpacks it can read it")
        return {member.name.partition("/")[2]: tar.extractfile(member).read() for member in members}


def tells_no_key(files):
    text = b"".join(files.values())
    joined = b"".join(text.split())
    for key in (KEY, KEY[::-1], KEY[32:] + KEY[:32]):
        for form in (key, key.hex().encode(), base64.b64encode(key)[:-4]):
            demand(form not in text and form not in joined, "no key is in the archive")
    demand(PASSWORD.encode() not in text, "no password is in the archive")


def what_is_there(room):
    environment = made_host(room, 1)
    status, said, errors = collected(environment, "--since", "-2h", "--until", "now", room / "one.tar.gz")
    same((status, said), (0, "%s\n" % (room / "one.tar.gz")), "an archive")
    same(oct((room / "one.tar.gz").stat().st_mode & 0o777), "0o600", "its rights")
    files = files_of(room / "one.tar.gz")
    tells_no_key(files)
    for name in ("settings/quorumd/corosync.conf", "settings/quorumd/node-1.env", "status/text", "status/json", "status/units", "status/resources", "journal", "kernel", "boots",
                 "history", "images/1/name", "images/1/list", "images/1/dump", "images/1/check", "records/quorumd/node-7", "records/halted-1", "versions/quorumd", "README"):
        demand(files.get(name), "%s is in the archive: %r" % (name, sorted(files)))
    same(files["settings/quorumd/corosync.conf"], (TOP / "examples" / "two-node.conf").read_bytes(), "the settings")
    demand(b"ip = 192.0.2.10\n" in files["settings/quorumd/resources.conf"], "what is no secret stays")
    demand(b"admin_password = (left out)\n" in files["settings/quorumd/resources.conf"], "a secret is named")
    demand(files["images/1/list"].startswith(b"node 1 "), "the list of the image")
    demand(b"node 1 holds the resource" in files["history"], "what the journal tells")
    same(files["records/quorumd/node-7"], b"the record of a node\n", "a record")
    demand(b"--since=-2h --until=now" in files["README"], "the span")
    for name in ("settings/quorumd/node-9.env", "records/quorumd/failures", "records/quorumd/handovers"):
        demand(name not in files and name.encode() in files["README"].partition(b"What is not:")[2] and name in errors, "%s is left out, and that is said" % name)
    demand("settings/quorumd/key" not in files and not [name for name in files if name.endswith("/key")], "no file of a key")
    same((os.listdir(room / "temporary"), list(room.glob("*.new"))), ([], []), "nothing is left")
    return environment


def several_journals(room):
    """`quorumctl history` over the journals of archives that were unpacked."""
    environment = made_host(room / "second", 2)
    collected(environment, room / "two.tar.gz")
    paths = []
    for name in ("one", "two"):
        (room / (name + ".journal")).write_bytes(files_of(room / (name + ".tar.gz"))["journal"])
        paths.append(room / (name + ".journal"))
    told = subprocess.run([os.environ["QUORUMCTL"], "history", *paths], stdout=subprocess.PIPE, check=True).stdout
    wanted = subprocess.run([os.environ["QUORUMCTL"], "history", *(JOURNALS / name for name in ("node-1", "node-2"))], stdout=subprocess.PIPE, check=True).stdout
    same(told, wanted, "the history of two archives")
    demand(b"node 1 holds the resource" in told and b"node 2 fenced node 1" in told, "both nodes tell")


def bad_input(room, environment):
    usage = "usage: quorumd-collect [--since TIME] [--until TIME] [ARCHIVE]"
    for words, line in (((room / "one.tar.gz",), "one.tar.gz is there, and nothing is written over it"), (("one.zip",), "the name of an archive ends in .tar.gz"),
                        (("absent/x.tar.gz",), "absent: no such folder"), (("--since",), "--since: its value is missing"), (("--key",), "--key is not taken"),
                        (("a.tar.gz", "b.tar.gz"), "b.tar.gz is one too many"), (("--since", "rubbish", "x.tar.gz"), "Failed to parse timestamp: rubbish")):
        status, said, errors = collected(environment, *words, cwd=room)
        same((status, said, errors.splitlines()[-1], len(errors.splitlines())), (2, "", usage, 2), words)
        demand(line in errors, "%r says %r" % (words, line))
    (room / "run" / "quorumd" / "node-1.json").unlink()
    (room / "disk").unlink()
    os.mkfifo(room / "run" / "quorumd" / "node-8")
    status, said, errors = collected(environment, room / "less.tar.gz")
    same(status, 0, "a host of which little is there")
    for line in ("status: no node was started on this host since its boot", "images/1: %s is not there" % (room / "disk"), "node-8: "):
        demand(line in errors, "%r is said: %s" % (line, errors))


def nothing_half_done(room, environment):
    before = sorted(os.listdir(room))
    limited = subprocess.run(["bash", "-c", 'ulimit -f 1; exec "$0" "$1"', SCRIPT, room / "limited.tar.gz"], env=environment, stdout=subprocess.PIPE, stderr=subprocess.PIPE, check=False)
    same((limited.returncode, limited.stdout), (1, b""), "a file that may not grow")
    demand(b"File too large" in limited.stderr.splitlines()[-1], "it says why: %r" % limited.stderr)
    (room / "other.tar.gz.new").touch()
    status, said, errors = collected(environment, room / "other.tar.gz")
    same((status, said, errors.splitlines()[-1]), (1, "", "quorumd-collect: %s: File exists" % (room / "other.tar.gz.new")), "a file of somebody else")
    (room / "other.tar.gz.new").unlink()
    (room / "slow").touch()
    child = subprocess.Popen([SCRIPT, room / "slow.tar.gz"], env=environment, stdout=subprocess.PIPE, stderr=subprocess.PIPE, start_new_session=True)
    while not os.listdir(room / "temporary"):
        time.sleep(0.05)
    time.sleep(0.5)
    os.killpg(child.pid, signal.SIGTERM)
    errors = child.communicate(timeout=30)[1].decode()
    same((child.returncode, errors.splitlines()[-1]), (1, "quorumd-collect: interrupted: nothing is left"), "an interruption")
    (room / "slow").unlink()
    same(sorted(os.listdir(room)), before, "no archive, whole or half")
    same(os.listdir(room / "temporary"), [], "nothing is left")


def main():
    room = pathlib.Path.cwd() / "host"
    environment = what_is_there(room)
    several_journals(room)
    bad_input(room, environment)
    nothing_half_done(room, environment)


main()
