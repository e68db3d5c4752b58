"""layers.py refuses a crate that stands on a layer that its own is never on, also through other crates: each of these edits of crates.txt, and says
which crate stands on which, and through which."""
import os
import pathlib
import subprocess
import sys
import tempfile

TOP = pathlib.Path(os.environ["TOP"])
REFUSED = [
    # a crate, what is added to its line, and what is said of it
    ("qn_quorum", "qn_sector", ["qn_quorum stands on qn_sector: Parts of a node is never on Texts and bytes",
                                "qn_node stands on qn_sector through qn_quorum: Node is never on Texts and bytes"]),
    ("qn_status", "qn_machine", ["qn_status stands on qn_machine: Whole clusters is never on Machine"]),
    ("qn_node", "qn_parts", ["qn_node stands on qn_safety through qn_parts: Node is never on Safety and progress"]),
    ("qn_live", "qn_world", ["qn_live stands on qn_world: One outside is never on Whole clusters",
                             "qn_notice stands on qn_world through qn_live: One outside is never on Whole clusters"]),
    ("qn_control", "qn_node", ["qn_control stands on qn_node: What an operator asks is never on Node",
                               "quorumctl stands on qn_node through qn_control: What an operator asks is never on Node"]),
]


def said_of(lines):
    """What layers.py says of these lines of crates.txt in the place of those that stand there, of layers that a crate is never on."""
    with tempfile.TemporaryDirectory() as folder:
        for name in ("docs", "simulator", "tests"):
            os.symlink(TOP / name, os.path.join(folder, name))
        pathlib.Path(folder, "crates.txt").write_text("".join(lines))
        done = subprocess.run([sys.executable, "-B", TOP / "tests" / "scripts" / "layers.py"], env=dict(os.environ, TOP=folder), stdout=subprocess.PIPE, text=True)
    return [line for line in done.stdout.splitlines() if " is never on " in line]


def main():
    lines = (TOP / "crates.txt").read_text().splitlines(keepends=True)
    wrong = ["the lines as they stand: " + line for line in said_of(lines)]
    for crate, added, wanted in REFUSED:
        edited = [line.rstrip("\n") + " %s\n" % added if line.startswith(crate + ":") else line for line in lines]
        said = said_of(edited)
        wrong += ["%s on %s: not said: %s" % (crate, added, line) for line in wanted if line not in said]
    print("\n".join(wrong))
    return 1 if wrong else 0


sys.exit(main())
