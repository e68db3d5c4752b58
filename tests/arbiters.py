"""For the scripts of this folder that run an arbiter: a process of it, with what it said."""
import json
import os
import pathlib
import subprocess

from live import QUORUMD, STARTED, event_of, wait_for

SEATS = 33  # ports of a cluster and its arbiter


class Arbiter:
    """A process of `quorumd arbiter`, with its status file, and what it said."""

    def __init__(self, name, conf, port, before=(), turns=20000):
        self.folder = pathlib.Path(name)
        self.folder.mkdir()
        (self.folder / "conf").write_text(conf)
        self.status_file = self.folder / "status"
        words = [QUORUMD, "--status", str(self.status_file), *before, "arbiter", "--port", str(port), "--turns", str(turns)]
        with open(self.folder / "conf", encoding="ascii") as text, open(self.folder / "out", "w", encoding="ascii") as out, \
                open(self.folder / "errors", "w", encoding="ascii") as errors:
            self.process = subprocess.Popen(words, stdin=text, stdout=out, stderr=errors, env={k: v for k, v in os.environ.items() if k != "JOURNAL_STREAM"})
        STARTED.append(self.process)

    def events(self, name):
        return [event for event in map(event_of, (self.folder / "errors").read_text().splitlines()) if event and event["event"] == name]

    def status(self):
        return json.loads(self.status_file.read_text())

    def opened(self):
        return wait_for("the port is open", lambda: self.events("arbiter-open"))[0]
