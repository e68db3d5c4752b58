"""Mistakes of a tired operator, each with the line that it gets: tests/rows/mistakes.tsv has the place, the cause and the remedy that the answer says. A command
ends with its status, and leaves no file but those that were there."""
import os
import pathlib
import shutil
import subprocess
import sys

TOP = pathlib.Path(os.environ["TOP"])
LEAST = 100  # rows
SCRIPTS = ("packaging/quorumd-setup", "packaging/node-check", "packaging/node-images", "contrib/quorumd-collect", "contrib/quorumd-page", "contrib/quorumd-acceptance",
           "contrib/quorumd-resource", "contrib/quorumd-agent", "contrib/hand-over", "bin/story", "bin/timeline", "packaging/build-deb")
SETTINGS = """nodelist {
 node {
  nodeid: 1
  name: alpha
  ring0_addr: 192.0.2.7
 }
 node {
  nodeid: 2
  name: beta
  ring0_addr: 192.0.2.8
 }
 node {
  nodeid: 3
  name: gamma
  ring0_addr: 192.0.2.9
 }
}
quorum {
 provider: corosync_votequorum
}
"""
# texts at fault: what is written in place of what
TEXTS = {
    "text-word": ("nodeid: 2", "nodeid: two"), "text-twice": ("nodeid: 2", "nodeid: 1"), "text-no-id": ("  nodeid: 2\n", ""), "text-no-nodes": ("nodelist", "nodeslist"),
    "text-open": ("votequorum\n}", "votequorum"), "text-colon": ("nodeid: 2", "nodeid 2"), "text-brace": ("votequorum\n}", "votequorum\n}\n}"),
    "text-two-node": ("votequorum", "votequorum\n two_node: 1"), "text-provider": ("corosync_votequorum", "votequorum"),
    "text-expected": ("votequorum", "votequorum\n expected_votes: all"), "text-zero": ("votequorum", "votequorum\n expected_votes: 0"),
    "text-downscale": ("votequorum", "votequorum\n allow_downscale: 1"), "text-yes": ("votequorum", "votequorum\n wait_for_all: yes"),
    "text-breaker": ("votequorum", "votequorum\n auto_tie_breaker: 1\n auto_tie_breaker_node: 9"), "text-standby": ("name: beta", "name: beta\n  standby: maybe"),
    "text-name": ("192.0.2.8", "beta.example"), "text-same": ("192.0.2.8", "192.0.2.7"), "text-no-address": ("  ring0_addr: 192.0.2.8\n", ""),
}


def rows():
    lines = (TOP / "tests" / "rows" / "mistakes.tsv").read_text().splitlines()
    return [line.split("\t") for line in lines if line and not line.startswith("#")]


def shell(command):
    """A command with the programs and scripts on its path, its status and all that it said."""
    here = pathlib.Path.cwd()
    environment = dict(os.environ, PATH="%s:%s" % (here / "bin", os.environ["PATH"]), QUORUMD_ETC=str(here / "etc"), QUORUMD_HELPERS=str(TOP / "packaging"),
                       QUORUMD_RUN=str(here / "run"), QUORUMD_STATE=str(here / "state"), RUN=str(here / "run"), STATE=str(here / "state"), HERE=str(here), WAIT="0",
                       SETTINGS=str(here / "three"), PYTHONDONTWRITEBYTECODE="1")
    done = subprocess.run(["bash", "-c", command], stdin=subprocess.DEVNULL, stdout=subprocess.PIPE, stderr=subprocess.STDOUT, text=True, timeout=60,
                          env=environment, check=False)
    return done.returncode, done.stdout


def make_programs():
    """A folder of the programs and scripts by their names, and a host whose name and address are those of no node; without systemd."""
    pathlib.Path("bin").mkdir()
    for name, path in (("quorumd", os.environ["QUORUMD"]), ("quorumctl", os.environ["QUORUMCTL"]), *((pathlib.Path(path).name, TOP / path) for path in SCRIPTS)):
        pathlib.Path("bin", name).symlink_to(path)
    for name, text in (("hostname", "echo delta"), ("ip", "echo '2: eth0 inet 192.0.2.1/24'"), ("getent", "exit 2"), ("systemctl", '[ "$1" != list-units ] || echo "${UNITS-}"')):
        path = pathlib.Path("bin", name)
        path.write_text("#!/bin/sh\n%s\n" % text)
        path.chmod(0o755)


def make_files():
    """The files that the rows name: settings, good ones and some at fault, images, keys that are none, and what a host has in /etc."""
    for folder in ("etc/quorumd", "run", "state", "folder"):
        pathlib.Path(folder).mkdir(parents=True)
    shutil.copy(TOP / "packaging" / "node.env", "etc/quorumd")
    for name, example in (("conf", "two-node.conf"), ("one", "one-node.conf")):
        pathlib.Path(name).write_text((TOP / "examples" / example).read_text())
    pathlib.Path("three").write_text(SETTINGS)
    for name, (old, new) in TEXTS.items():
        pathlib.Path(name).write_text(SETTINGS.replace(old, new))
    for image in ("disk", "off"):
        shell("quorumd --blank create --image %s < conf" % image)
    shell("quorumd message --image off --id 1 --kind off")
    for name, size, mode in (("short", 5, 0o600), ("open", 64, 0o644), ("key", 64, 0o600), ("again", 64, 0o600)):
        pathlib.Path(name).write_bytes(bytes(size))
        pathlib.Path(name).chmod(mode)
    pathlib.Path("there.tar.gz").write_bytes(b"")
    pathlib.Path("state/halted-2").write_text("fault BootHalted 3\n")


def wrong_of(row):
    """What is wrong with the answer to a mistake."""
    mistake, command, wanted, *parts = row
    status, said = shell(command)
    if status != int(wanted):
        yield "%s: status %d, not %s: %s" % (mistake, status, wanted, said)
    for name, part in zip(("place", "cause", "remedy"), parts, strict=True):
        if not part or part not in said:
            yield "%s: no %s %r in: %s" % (mistake, name, part, said)


def main():
    make_programs()
    make_files()
    before = {str(path) for path in pathlib.Path(".").rglob("*")}
    wrong = [line for row in rows() for line in wrong_of(row)]
    left = {str(path) for path in pathlib.Path(".").rglob("*")} - before
    if left:
        wrong.append("files were made: " + " ".join(sorted(left)))
    print("\n".join(wrong))
    sys.exit(1 if wrong or len(rows()) < LEAST else 0)


main()
