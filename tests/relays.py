"""For the scripts whose packets are late, overtake one another or are lost on one of several networks: namespaces of nodes, and relays between the
devices in them. A relay stands for the switch of a network."""
import heapq
import random
import socket
import subprocess
import threading
import time

IPV4, IPV6, UDP = b"\x08\x00", b"\x86\xdd", 17


def summed(frame):
    """A frame with a packet of UDP as it goes over a wire: the sender left its checksum to the device. Over IPv4 it has none; over IPv6 it is to be right."""
    if frame[12:14] == IPV4 and frame[23] == UDP:
        return frame[:40] + b"\0\0" + frame[42:]
    if frame[12:14] == IPV6 and frame[20] == UDP:
        words = frame[22:54] + len(frame[54:]).to_bytes(4, "big") + bytes((0, 0, 0, UDP)) + frame[54:60] + b"\0\0" + frame[62:] + bytes(len(frame) % 2)
        total = sum(int.from_bytes(words[at:at + 2], "big") for at in range(0, len(words), 2))
        return frame[:60] + ((0xFFFF - total % 0xFFFF) or 0xFFFF).to_bytes(2, "big") + frame[62:]
    return None


class Relay:
    """Between the ports of some nodes: each frame of one goes to the others, a packet of UDP after a delay that is drawn between the least and the
    greatest, in seconds; none of a port that is cut, and none to it."""

    def __init__(self, ports, greatest=0.0, seed=""):
        self.sockets, self.least, self.greatest, self.draw = {}, 0.0, greatest, random.Random(seed)
        self.waiting, self.count, self.changed, self.cut = [], 0, threading.Condition(), set()
        self.ports = list(ports)
        for port in ports:
            opened = socket.socket(socket.AF_PACKET, socket.SOCK_RAW, socket.htons(3))
            opened.bind((port, 0))
            self.sockets[port] = opened
        for port in ports:
            threading.Thread(target=self.take, args=(port,), daemon=True).start()
        threading.Thread(target=self.give, daemon=True).start()

    def take(self, port):
        while True:
            frame, where = self.sockets[port].recvfrom(2048)
            if where[2] != socket.PACKET_OUTGOING:
                self.keep(port, frame)

    def keep(self, port, frame):
        """Has a frame wait for its time."""
        packet = summed(frame)
        with self.changed:
            due = time.monotonic() + (self.draw.uniform(self.least, self.greatest) if packet else 0)
            self.count += 1
            heapq.heappush(self.waiting, (due, self.count, port, packet or frame))
            self.changed.notify()

    def give(self):
        while True:
            with self.changed:
                while not self.waiting or self.waiting[0][0] > time.monotonic():
                    self.changed.wait(self.waiting[0][0] - time.monotonic() if self.waiting else None)
                _, _, port, frame = heapq.heappop(self.waiting)
            for other, opened in self.sockets.items():
                if other != port and not {other, port} & self.cut:
                    opened.send(frame)


class Namespaces:
    """A namespace for each node, with a device on each network of this name, whose other end is a port outside."""

    def __init__(self, name, ids, networks=1):
        self.keepers, self.ports = {}, []
        for ident in ids:
            keeper = subprocess.Popen(["unshare", "-n", "sh", "-c", "echo; exec cat"], stdin=subprocess.PIPE, stdout=subprocess.PIPE)
            keeper.stdout.readline()
            self.keepers[ident] = keeper
            self.ip("link", "set", "lo", "up", inside=ident)
        for network in range(networks):
            self.ports.append(["%s-%d%d" % (name, network, ident) for ident in ids])
            for ident, port in zip(ids, self.ports[network]):
                self.ip("link", "add", "name", port, "type", "veth", "peer", "name", "member%d" % network, "netns", str(self.keepers[ident].pid))
                self.ip("link", "set", port, "up")
                self.ip("link", "set", "member%d" % network, "up", inside=ident)

    def enter(self, ident):
        return "nsenter", "-t", str(self.keepers[ident].pid), "-n"

    def ip(self, *words, inside=None):
        subprocess.run([*(self.enter(inside) if inside else ()), "ip", *words], check=True)

    def give_address(self, ident, network, address):
        """Gives the device of a node on that network this address."""
        more = ("nodad",) if ":" in address else ()
        self.ip("addr", "add", address, "dev", "member%d" % network, *more, inside=ident)
