"""Each script of the repository answers words that are none with its usage, never with a traceback: no word where it needs one, an unknown option, a
file that is absent, a folder and an empty file and bytes that are no text in its place, and words without end. `--help` writes what it is."""
import concurrent.futures
import os
import pathlib
import signal
import subprocess
import sys
import tempfile

TOP = pathlib.Path(os.environ["TOP"])
BYTES = bytes(range(256))
ANSWERS = {"none": [], "option": ["--no-such-word"], "help": ["--help"], "absent": ["no-file"], "folder": ["folder"], "empty": ["empty"], "binary": ["binary"],
           "many": ["a"] * 12}

# What a script answers to each of these: `2` is its usage on standard error with status 2, `text` that status for a text at fault, `help` what it is
# with status 0, another number that status, and `-` what is not tried, since it is no wrong word there and starts its work.
FOLDER = "2 2 help 2 2 2 2 2"
NUMBERS = "- 2 help 2 2 2 2 2"
ROWS = {
    # script: none option help absent folder empty binary many
    "bin/story": "2 2 help 2 2 2 2 2",
    "bin/timeline": "4 2 help 2 2 4 4 2",
    "bench/campaign": "2 2 help 2 2 2 2 2",
    "bench/soak-nodes": "2 2 help 2 2 2 2 2",
    "bench/quiet": "2 2 help 2 2 2 2 2",
    "bench/names": "2 2 help 2 2 2 2 2",
    "bench/boots": "2 2 help 2 2 - - 2",
    "bench/take-overs": "2 2 help 2 2 2 2 2",
    "bench/budget": "- 2 help 2 2 2 2 2",
    "bench/gate": "- - help - - - - -",
    "completions/make": "- 2 help 2 0 2 2 2",
    "contrib/quorumd-acceptance": "2 2 help 2 2 text text 2",
    "contrib/quorumd-agent": "2 2 2 2 2 2 2 2",
    "contrib/quorumd-collect": "- 2 help 2 2 2 2 2",
    "contrib/quorumd-page": "2 2 help 0 2 text text 2",
    "contrib/hand-over": "2 2 2 2 2 2 2 2",
    "contrib/quorumd-resource": "2 2 help 2 2 2 2 2",
    "examples/live/audit": FOLDER,
    "examples/live/check": "2 2 help 2 2 0 text 2",
    "examples/live/first": "- 2 2 2 2 2 2 2",
    "examples/live/host": "2 2 help 2 2 2 2 2",
    "examples/live/hosts.py": "2 2 help - 2 2 2 2",
    "examples/live/scenario": "2 2 help - 2 2 2 2",
    "examples/live/storm": "2 2 help 2 2 2 2 2",
    "packaging/build-deb": "- 2 help 2 - 2 2 2",
    "packaging/fill": "2 2 help 2 2 2 2 2",
    "packaging/node-check": "2 2 2 2 2 2 2 2",
    "packaging/node-ended": "2 2 2 2 2 2 2 2",
    "packaging/node-leave": "2 2 2 2 2 2 2 2",
    "packaging/node-opened": "2 2 2 2 2 2 2 2",
    "packaging/quorumd-setup": "2 2 help 2 2 2 2 2",
    "release/check": "- 2 2 2 2 2 2 2",
    "release/make": "- 2 2 2 2 2 2 2",
    "simulator/from": "2 2 help 2 2 2 2 2",
    "simulator/into": "2 2 help 0 0 2 2 2",
    "tests/edits/back": "- 2 help 2 2 0 text 2",
    "tests/edits/into": "2 2 help 2 2 2 2 2",
    "tests/hosts/containers": "2 2 2 2 2 - - 2",
    "tests/hosts/handovers": "2 2 help 2 2 2 2 2",
    "tests/hosts/judge": "2 2 help 2 2 2 2 2",
    "tests/hosts/watchdog": "1 1 1 1 1 1 1 1",
    "tests/judge-rows": "2 2 help 2 2 2 2 2",
    "tests/liars": "2 2 2 2 2 2 2 2",
    "tests/machines/halt-under-systemd": "2 2 2 2 2 2 2 2",
    "tests/machines/hypervisor": "2 2 help 2 - 2 2 2",
    "tests/machines/judge": "2 2 help 2 2 0 0 2",
    "tests/machines/machines": "2 2 2 2 2 2 2 2",
    "tests/machines/quorums": "2 2 help 2 2 text text 2",
    "tests/machines/relay": "2 2 help 2 2 2 2 2",
    "tests/machines/rows": "2 2 help - - - - 2",
    "tests/make-vector-rows": "2 2 help 2 2 2 2 2",
    "tests/over-etcd": "1 1 1 1 1 1 1 1",
    "tests/over-nbd": "1 1 1 1 1 1 1 1",
    "tests/run": "- 2 help - - - - -",
}
# no words of an operator: what starts a program or the gate, what dpkg or a machine starts
LEFT_OUT = {"bin/quorumd", "bin/quorumctl", "bench/qn_soak_nodes", "bench/qn_tests", ".ci/run", ".ci/daily", ".ci/tools", "debian/postinst", "debian/postrm", "debian/prerm", "debian/rules",
            "debian/tests/first-answer", "debian/tests/looks", "debian/tests/take-over", "tests/hosts/ask_arbiter", "tests/hosts/database",
            "tests/machines/held", "tests/machines/init", "tests/machines/signs"}


def scripts():
    """The paths of all scripts that can be started."""
    for folder, names, files in os.walk(TOP):
        names[:] = [name for name in names if name not in (".git", "out", "crates", "__pycache__")]
        for name in files:
            path = pathlib.Path(folder, name)
            if os.access(path, os.X_OK) and path.read_bytes()[:2] == b"#!":
                yield str(path.relative_to(TOP))


def answer(script, words):
    """The status of a script, and what it writes. It has a minute, and is then ended with all that it started."""
    with tempfile.TemporaryDirectory() as room:
        pathlib.Path(room, "folder").mkdir()
        pathlib.Path(room, "empty").touch()
        pathlib.Path(room, "binary").write_bytes(BYTES)
        child = subprocess.Popen([TOP / script, *words], cwd=room, stdin=subprocess.DEVNULL, stdout=subprocess.PIPE, stderr=subprocess.PIPE, start_new_session=True)
        try:
            said, errors = child.communicate(timeout=60)
        except subprocess.TimeoutExpired:
            os.killpg(child.pid, signal.SIGKILL)
            child.communicate()
            return "no end", "", ""
    return child.returncode, said.decode(errors="replace"), errors.decode(errors="replace")


def wrong(script, name, wanted):
    """What is wrong with an answer, or nothing."""
    if wanted == "-":
        return ""
    status, said, errors = answer(script, ANSWERS[name])
    is_right = {"help": status == 0 and len(said) > 50 and not errors,
                "text": status == 2 and errors and not said,
                "2": status == 2 and "usage: " in errors and not said}.get(wanted, str(status) == wanted)
    if is_right and "Traceback" not in errors:
        return ""
    return "%s, %s: not %s but status %s, %r" % (script, " ".join(ANSWERS[name]) or "no word", wanted, status, (said + errors)[-300:])


def main():
    found = set(scripts()) - LEFT_OUT
    table = {script: ROWS.get(script, NUMBERS if script.startswith("bench/") else "") for script in sorted(found)}
    missing = [script for script, row in table.items() if not row] + sorted(set(ROWS) - found)
    if missing:
        sys.exit("without a row, or without a script: %s" % " ".join(missing))
    tried = [(script, name, wanted) for script, row in table.items() for name, wanted in zip(ANSWERS, row.split(), strict=True)]
    with concurrent.futures.ThreadPoolExecutor(4) as pool:
        faults = [fault for fault in pool.map(lambda row: wrong(*row), tried) if fault]
    if faults:
        sys.exit("\n".join(faults))


main()
