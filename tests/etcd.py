"""For the scripts that keep images in an etcd cluster: servers of Debian's package etcd-server, their keys, and a server in front of one that does
to some requests what a server should not."""
import atexit
import base64
import contextlib
import ctypes
import http.client
import json
import os
import pathlib
import shutil
import signal
import socket
import socketserver
import subprocess
import tempfile
import threading
import time

SECTOR = 512
STARTED = []
FOLDERS = []  # of servers that keep their keys in memory, as tests do: they are of what is asked and answered, and a disk with other work is slow


def is_there():
    return shutil.which("etcd") is not None


def free_port():
    """A TCP port of 127.0.0.1 that nobody uses."""
    with socket.socket() as one:
        one.bind(("127.0.0.1", 0))
        return one.getsockname()[1]


def text(value):
    return base64.b64encode(value.encode() if isinstance(value, str) else value).decode()


class Keys:
    """The keys of a cluster, over a connection to a member."""

    def __init__(self, host):
        self.host, self.connection = host, http.client.HTTPConnection(host, timeout=10)

    def ask(self, what, body):
        self.connection.request("POST", "/v3/kv/" + what, json.dumps(body))
        answer = self.connection.getresponse()
        said = json.loads(answer.read())
        if answer.status != 200:
            raise OSError("%s: %s" % (what, said))
        return said

    def put(self, key, value):
        return self.ask("put", {"key": text(key), "value": text(value)})

    def get(self, key):
        """The value and the revision of its last change; None where it is not there."""
        found = self.ask("range", {"key": text(key)}).get("kvs")
        return found and (base64.b64decode(found[0].get("value", "")), int(found[0]["mod_revision"]))

    def all(self, prefix):
        """Each key of a prefix, with its value and the revision of its last change."""
        found = self.ask("range", {"key": text(prefix + "/"), "range_end": text(prefix + "0")}).get("kvs", [])
        return {base64.b64decode(one["key"]).decode(): (base64.b64decode(one.get("value", "")), int(one["mod_revision"])) for one in found}

    def delete(self, prefix):
        self.ask("deleterange", {"key": text(prefix + "/"), "range_end": text(prefix + "0")})

    def load(self, prefix, image):
        """Puts an image of bytes there, without the sectors that are zeros."""
        for number in range((len(image) + SECTOR - 1) // SECTOR):
            sector = image[number * SECTOR:(number + 1) * SECTOR].ljust(SECTOR, b"\0")
            if any(sector):
                self.put("%s/%04d" % (prefix, number), sector)


class Member:
    """A server of a cluster. It is ended with the script."""

    def __init__(self, folder, name, peers, user=None):
        self.name, self.port, self.log, self.user = name, free_port(), pathlib.Path(folder) / (name + ".log"), user
        self.host, self.peer_port = "127.0.0.1:%d" % self.port, int(peers[name].rsplit(":", 1)[1])
        self.words = [
            "etcd", "--name", name, "--data-dir", str(pathlib.Path(folder) / name),
            "--listen-client-urls", "http://" + self.host, "--advertise-client-urls", "http://" + self.host,
            "--listen-peer-urls", peers[name], "--initial-advertise-peer-urls", peers[name],
            "--initial-cluster", ",".join("%s=%s" % each for each in peers.items()),
        ]
        self.start()

    def start(self):
        def first():
            ctypes.CDLL(None).prctl(1, signal.SIGKILL)  # it ends with the script, however that ends
            with contextlib.suppress(OSError):  # what is before the machine's other work needs root
                os.nice(-10)

        with open(self.log, "a") as log:
            self.process = subprocess.Popen(self.words, stdout=log, stderr=log, preexec_fn=first, user=self.user)
        STARTED.append(self.process)

    def send(self, number):
        self.process.send_signal(number)

    def kill(self):
        self.process.kill()
        self.process.wait()

    def answers(self):
        """Whether it answers a read that all have to agree on."""
        try:
            Keys(self.host).get("x")
            return True
        except (OSError, http.client.HTTPException):
            return False

    def is_leader(self):
        """Whether it says that it leads; None where it says nothing."""
        try:
            connection = http.client.HTTPConnection(self.host, timeout=2)
            connection.request("POST", "/v3/maintenance/status", "{}")
            said = json.loads(connection.getresponse().read())
            return said["leader"] == said["header"]["member_id"]
        except (OSError, http.client.HTTPException, KeyError):
            return None


def servers(count=1, users=(), folder=None):
    """A cluster of so many servers on this host, once each answers; each is that of its own user, where users are given. It keeps its keys in this
    folder, or in memory."""
    if not folder:
        folder = tempfile.mkdtemp(dir="/dev/shm" if os.access("/dev/shm", os.W_OK) else None)
        FOLDERS.append(folder)
    names = ["m%d" % number for number in range(1, count + 1)]
    peers = {name: "http://127.0.0.1:%d" % free_port() for name in names}
    if users:
        os.chmod(folder, 0o777)
    found = [Member(folder, name, peers, user) for name, user in zip(names, users or [None] * count)]
    end = time.monotonic() + 60
    while not all(member.answers() for member in found):
        if time.monotonic() > end:
            raise OSError("no cluster: see %s" % found[0].log)
        time.sleep(0.1)
    return found


def end_all():
    for process in STARTED:
        if process.poll() is None:
            process.kill()
            process.wait()
    for folder in FOLDERS:
        shutil.rmtree(folder, ignore_errors=True)


atexit.register(end_all)


class Crooked:
    """A server in front of a member, which hands requests on and answers back, and does to some of them what a server should not: `fate(number)`
    says what, of the request of that number, from 1. None: nothing; `refused`: closed without an answer, and not handed on; `lost`: handed on, and
    closed without an answer; `error`: status 503; `late`: answered after two seconds; `short`: half of the answer; `wrong`: the answer to
    another request; `doubled`: the answer twice; `chunked`: in pieces; `long`: a body of 20000 bytes; `nothing`: an answer that says nothing."""

    FATES = ("refused", "lost", "error", "late", "short", "wrong", "doubled", "chunked", "long", "nothing")

    def __init__(self, host, fate):
        self.host, self.fate, self.count, self.lock = host, fate, 0, threading.Lock()
        crooked = self

        class Handler(socketserver.StreamRequestHandler):
            disable_nagle_algorithm = True

            def handle(self):
                try:
                    while crooked.serve(self):
                        pass
                except (OSError, http.client.HTTPException):
                    pass

        class Server(socketserver.ThreadingTCPServer):
            daemon_threads = True
            allow_reuse_address = True

        self.server = Server(("127.0.0.1", 0), Handler)
        self.at = "127.0.0.1:%d" % self.server.server_address[1]
        threading.Thread(target=self.server.serve_forever, daemon=True).start()

    def serve(self, handler):
        line = handler.rfile.readline()
        if not line:
            return False
        length = 0
        while True:
            field = handler.rfile.readline()
            if field in (b"\r\n", b""):
                break
            name, value = field.split(b":", 1)
            if name.lower() == b"content-length":
                length = int(value)
        body = handler.rfile.read(length)
        with self.lock:
            self.count += 1
            fate = self.fate(self.count)
        if fate == "refused":
            return False
        said = self.hand_on(line.split()[1].decode(), body)
        return self.answer(handler, fate, said)

    def hand_on(self, path, body):
        connection = http.client.HTTPConnection(self.host, timeout=10)
        connection.request("POST", path, body)
        answer = connection.getresponse()
        return answer.status, answer.read()

    def answer(self, handler, fate, said):
        status, body = said
        out = handler.wfile
        if fate == "lost":
            return False
        if fate == "error":
            status, body = 503, b'{"error":"etcdserver: no leader","code":14}'
        if fate == "late":
            time.sleep(2)
        if fate == "wrong":
            other = {"key": text("elsewhere"), "value": text("x"), "mod_revision": "3"}
            body = json.dumps({"header": {"revision": "9"}, "succeeded": True, "responses": [{"response_range": {"kvs": [other]}}]}).encode()
        if fate == "nothing":
            body = b"{}"
        if fate == "long":
            body = b" " * 20000 + body
        head = b"HTTP/1.1 %d OK\r\nContent-Type: application/json\r\n" % status
        if fate == "chunked":
            out.write(head + b"Transfer-Encoding: chunked\r\n\r\n%x\r\n%s\r\n0\r\n\r\n" % (len(body), body))
            return True
        whole = head + b"Content-Length: %d\r\n\r\n" % len(body) + body
        if fate == "short":
            out.write(whole[:len(whole) // 2])
            return False
        out.write(whole * (2 if fate == "doubled" else 1))
        return True
