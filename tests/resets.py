"""For the scripts that run nodes over a server which misbehaves: plays the machines, and judges by the resources that never two held.

A resource here is an agent that marks when it was started and when it was stopped. A machine ends its node, and with it the resource, where its
watchdog was not fed for its time."""
import pathlib
import threading
import time

from live import Agent, Wrong


class Marks:
    """Which resources of a cluster hold, by what their agents were told and which machines were reset. Two at one moment are wrong."""

    def __init__(self, name):
        self.name, self.lock, self.held, self.starts, self.both = name, threading.Lock(), set(), 0, []

    def start(self, ident):
        with self.lock:
            self.held.add(ident)
            self.starts += 1
            if len(self.held) > 1:
                self.both.append(sorted(self.held))

    def end(self, ident):
        with self.lock:
            self.held.discard(ident)

    def answer(self, ident, line):
        """What the agent of a node's resource does with a line, and answers."""
        if line == "start\n":
            self.start(ident)
        elif line == "stop\n":
            self.end(ident)
        else:
            return b"no\n"
        return b"ok\n"

    def agent(self, ident, folder):
        return Agent(pathlib.Path(folder) / ("agent.%d" % ident), lambda line, _: self.answer(ident, line)).word()

    def judge(self):
        if self.both:
            raise Wrong("%s: held at one moment: %r" % (self.name, self.both))


class Machines:
    """The machines of these nodes: one whose watchdog was not fed for so many seconds, or whose node has ended, is reset."""

    def __init__(self, cluster, nodes, marks, watchdog):
        self.cluster, self.nodes, self.marks, self.watchdog, self.over = cluster, nodes, marks, watchdog, False
        self.thread = threading.Thread(target=self.run, daemon=True)
        self.thread.start()

    def run(self):
        fed = {node: (len(self.cluster.watchdog(node.ident)), time.monotonic()) for node in self.nodes}
        left = list(self.nodes)
        while left and not self.over:
            for node in list(left):
                count, (before, since) = len(self.cluster.watchdog(node.ident)), fed[node]
                if not node.runs():
                    left.remove(node)
                    self.marks.end(node.ident)
                elif count != before:
                    fed[node] = count, time.monotonic()
                elif count and time.monotonic() - since > self.watchdog:
                    node.kill()
                    node.process.wait()
            time.sleep(0.02)

    def stop(self):
        self.over = True
        self.thread.join()
