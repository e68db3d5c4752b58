"""For the scripts of this folder that run a block server: one of its own, which can misbehave, and those that are installed.

The bytes are those of doc/proto.md of NBD: fixed newstyle negotiation, NBD_OPT_GO, simple replies."""
import atexit
import os
import shutil
import signal
import socket
import struct
import subprocess
import threading
import time

from live import STARTED, free_tcp_port, wait_for

OPTION, REPLY = b"IHAVEOPT", 0x3E889045565A9
GO, ACK, INFO, UNKNOWN = 7, 1, 3, 2**31 + 6
REQUEST, ANSWER = 0x25609513, 0x67446698
READ, WRITE, FUA = 0, 1, 1
HAS_FLAGS, READ_ONLY, SEND_FUA = 1, 2, 8
EXPORT = ":exportname="  # between the path of a socket and the name of an export
SIZE = 1 << 20


class BlockServer:
    """A server of some bytes in memory at a Unix socket. `fault(number)` names what it does at the request of that number, from 1, of which
    `command` is what is asked for, and `place` where: None, or `error`, `late`, `short`, `other` (the answer of another request), `twice`, `wrong` (no answer at all), `close`."""

    def __init__(self, path, fault=lambda number: None, size=SIZE, flags=HAS_FLAGS | SEND_FUA, least=1, greeting=b"NBDMAGIC" + OPTION + b"\0\3", kind=None):
        self.path, self.fault, self.flags, self.least, self.greeting, self.kind = str(path), fault, flags, least, greeting, kind
        self.data, self.requests, self.lasting, self.lock = bytearray(size), 0, [], threading.Lock()
        self.listener = socket.socket(socket.AF_UNIX)
        self.listener.bind(self.path)
        self.listener.listen()
        self.connections, self.late, self.command, self.place = 0, 1.5, None, None  # seconds that a late answer takes
        threading.Thread(target=self.listen, daemon=True).start()

    def word(self):
        return "nbd:unix:%s" % self.path

    def listen(self):
        while True:
            stream, _ = self.listener.accept()
            self.connections += 1
            threading.Thread(target=self.serve, args=(stream,), daemon=True).start()

    def serve(self, stream):
        try:
            with stream:
                if self.open(stream):
                    while self.answer(stream):
                        pass
        except OSError:  # the other side gave up
            pass

    def open(self, stream):
        stream.sendall(self.greeting)
        head = take(stream, 20)
        if not head:
            return False
        flags, option, number, length = struct.unpack(">I8sII", head)
        body = take(stream, length)
        if (option, number, flags) != (OPTION, GO, 3) or body[-4:] != b"\0\1\0\3":
            return False
        for kind, told in ((INFO, struct.pack(">HQH", 0, len(self.data), self.flags)), (INFO, struct.pack(">HIII", 3, self.least, 4096, 1 << 25)), (ACK, b"")):
            stream.sendall(struct.pack(">QIII", REPLY, GO, self.kind or kind, len(told)) + told)
        return True

    def answer(self, stream):
        """Takes a request and answers it, as the fault says."""
        head = take(stream, 28)
        if not head:
            return False
        magic, flags, kind, number, at, count = struct.unpack(">IHHQQI", head)
        written = take(stream, count) if kind == WRITE else b""
        with self.lock:
            self.requests += 1
            self.command, self.place = kind, at
            fault = self.fault(self.requests)
            if (magic, fault) == (REQUEST, None) or fault in ("late", "short", "other", "twice"):
                self.data[at:at + len(written)] = written
                if kind == WRITE:
                    self.lasting.append(flags == FUA)
        read = bytes(self.data[at:at + count]) if kind == READ else b""
        if fault == "late":
            time.sleep(self.late)
        if fault == "close":
            return False
        if fault == "wrong":
            stream.sendall(b"\0" * 16)
            return True
        error = 5 if fault == "error" else 0
        reply = struct.pack(">IIQ", ANSWER, error, number + (1 if fault == "other" else 0)) + (b"" if error else read)
        stream.sendall(reply[:len(reply) // 2] if fault == "short" else reply)
        if fault == "twice":
            stream.sendall(reply)
        return fault != "short"


def take(stream, count):
    """So many bytes, or none where the other side closed."""
    got = b""
    while len(got) < count:
        more = stream.recv(count - len(got))
        if not more:
            return b""
        got += more
    return got


def connected(word):
    """A connection to the export of that word, past its beginning."""
    place = word.removeprefix("nbd:")
    if place.startswith("unix:"):
        path, _, name = place.removeprefix("unix:").partition(EXPORT)
        stream, name = socket.socket(socket.AF_UNIX), name.encode()
        stream.connect(path)
    else:
        address, _, name = place.partition("/")
        host, port = address.rsplit(":", 1)
        stream, name = socket.create_connection((host, int(port))), name.encode()
        stream.setsockopt(socket.IPPROTO_TCP, socket.TCP_NODELAY, 1)
    take(stream, 18)
    stream.sendall(struct.pack(">I8sIII", 3, OPTION, GO, len(name) + 6, len(name)) + name + b"\0\0")
    kind = INFO
    while kind == INFO:
        _, _, kind, length = struct.unpack(">QIII", take(stream, 20))
        take(stream, length)
    assert kind == ACK, kind
    return stream


def times(word, kind, count):
    """Seconds of so many reads, or writes that last, of 512 bytes, one after the other."""
    took = []
    with connected(word) as stream:
        for number in range(count):
            request = struct.pack(">IHHQQI", REQUEST, FUA if kind == WRITE else 0, kind, number, 512 * (number % 1024), 512)
            start = time.perf_counter()
            stream.sendall(request + (bytes(512) if kind == WRITE else b""))
            take(stream, 16 + (512 if kind == READ else 0))
            took.append(time.perf_counter() - start)
    return took


def installed(folder):
    """The servers of this host, each started over a file of zeros in the folder: name, the word of its export, and the file."""
    for name, start in (("qemu-nbd", qemu_nbd), ("nbdkit", nbdkit), ("nbd-server", nbd_server)):
        if not shutil.which(name):
            print("skipped: %s is not installed" % name)
            continue
        file = folder / ("%s.image" % name)
        file.write_bytes(bytes(SIZE))
        yield name, start(folder, file), file


def qemu_nbd(folder, file):
    path = folder / "qemu-nbd.socket"
    serve(["qemu-nbd", "-f", "raw", "--persistent", "--shared=0", "-k", path, file], lambda: is_open(socket.AF_UNIX, str(path)))
    return "nbd:unix:%s" % path


def nbdkit(folder, file):
    path = folder / "nbdkit.socket"
    serve(["nbdkit", "-f", "-U", path, "file", file], lambda: is_open(socket.AF_UNIX, str(path)))
    return "nbd:unix:%s" % path


def nbd_server(folder, file):
    """By TCP, where an export has a name. It goes into the background."""
    port = free_tcp_port()
    serve_q(folder, file, "listenaddr = 127.0.0.1\nport = %d" % port, lambda: is_open(socket.AF_INET, ("127.0.0.1", port)))
    return "nbd:127.0.0.1:%d/q" % port


def serve_q(folder, file, place, is_up):
    """Starts nbd-server at that place, with the file as the export q."""
    settings, pid = folder / "nbd-server.conf", folder / "nbd-server.pid"
    settings.write_text("[generic]\n%s\n[q]\nexportname = %s\nsync = true\nflush = true\nfua = true\n" % (place, file))
    atexit.register(lambda: os.kill(int(pid.read_text()), signal.SIGTERM))
    serve(["nbd-server", "-C", settings, "-p", pid], is_up)


def by_name(folder):
    """The servers of this host that serve names only, each over a file of zeros in the folder at a Unix socket: the word without a name, the one
    with the name, and the file."""
    for name, start in (("nbdkit", nbdkit_of_files), ("nbd-server", nbd_server_at_a_socket)):
        if not shutil.which(name):
            print("skipped: %s is not installed" % name)
            continue
        file = folder / name / "q"
        file.parent.mkdir()
        file.write_bytes(bytes(SIZE))
        word = start(folder, file)
        yield word, word + EXPORT + "q", file


def nbdkit_of_files(folder, file):
    """Each export is the file of that name."""
    path = folder / "nbdkit-of-files.socket"
    serve(["nbdkit", "-f", "-U", path, "file", "dir=%s" % file.parent], lambda: is_open(socket.AF_UNIX, str(path)))
    return "nbd:unix:%s" % path


def nbd_server_at_a_socket(folder, file):
    path = folder / "nbd-server.socket"
    serve_q(folder, file, "unixsock = %s" % path, lambda: is_open(socket.AF_UNIX, str(path)))
    return "nbd:unix:%s" % path


def is_open(family, address):
    with socket.socket(family) as stream:
        return stream.connect_ex(address) == 0


def serve(words, is_up):
    """Starts a server and waits until it takes connections."""
    process = subprocess.Popen(words, stdin=subprocess.DEVNULL, stdout=subprocess.DEVNULL, stderr=subprocess.DEVNULL)
    STARTED.append(process)
    wait_for("%s takes connections" % words[0], is_up)
    return process
