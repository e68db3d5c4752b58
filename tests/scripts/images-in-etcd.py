"""Images in an etcd cluster: each command as over a file, words that are none, a prefix in use, the tokens of nodes, a write of an earlier boot that
comes late, a second start of an id, a machine that has not left, and a server that does what it should not."""
import base64
import concurrent.futures
import os
import pathlib
import re
import shutil
import socket
import struct
import subprocess
import sys
import threading
import time

from etcd import Crooked, Keys, servers, text
from live import QUORUMD, Cluster, Wrong, free_ports, same, try_all, wait_for, without_advice

if not shutil.which("etcd"):
    print("skipped: no etcd (Debian: etcd-server)")
    sys.exit(0)
HOST = servers()[0].host
TOP = os.environ["TOP"]
MACHINE = pathlib.Path("/etc/machine-id").read_text().strip()


class EtcdCluster(Cluster):
    """The same with an image in the cluster."""

    def __init__(self, name, host=HOST, **given):
        self.prefix, self.keys, self.host = "test/" + name, Keys(HOST), host
        super().__init__(name, **given)

    def use_images(self):
        self.images = ["etcd:%s/%s" % (self.host, self.prefix)]

    def node(self, ident, **given):
        for name in "watchdog.%d" % ident, "resource.%d" % ident, "watchdog.second", "resource.second":
            (self.folder / name).touch()
        return super().node(ident, **given)

    def writer(self, ident):
        found = self.keys.get("%s/writer/%02d" % (self.prefix, ident - 1))
        return found and found[0].decode()


def said_of(command, image, *words, before=()):
    done = subprocess.run([QUORUMD, *before, command, "--image", image, *words], stdin=open(TOP + "/examples/two-node.conf"),
                          stdout=subprocess.PIPE, stderr=subprocess.PIPE, check=False)
    return done.returncode, done.stdout.decode(), without_advice(done.stderr.decode())


def words_that_are_none():
    none = "no etcd:HOST:PORT/PREFIX with a literal address and a prefix of 1 to 96 signs"
    far = "a cluster is asked on an address of this host alone, or with --open"
    for word, why in [
        ("etcd:", none), ("etcd:127.0.0.1:2379", none), ("etcd:127.0.0.1:2379/", none), ("etcd:localhost:2379/x", none),
        ("etcd:127.0.0.1/x", none), ("etcd:127.0.0.1:2379/x/", none), ("etcd:127.0.0.1:2379/x@4096", none),
        ("etcd:127.0.0.1:2379/x y", none), ("etcd:127.0.0.1:2379/" + "x" * 97, none),
        ("etcd:192.0.2.1:2379/x", far), ("etcd:[2001:db8::1]:2379/x", far),
    ]:
        same(word, said_of("list", word), (8, "fault EnvFault\n", "quorumd: %s: %s\n" % (word, why)))


def b64(value):
    return base64.b64encode(value if isinstance(value, bytes) else value.encode()).decode()


# of the page "Why gRPC gateway" of etcd's documentation, with the keys and values of an image in place of `foo` and `bar`: what is asked in a transaction, and
# the answers to a put, to a range, and to a transaction whose comparison does not hold
PUT = '{"header":{"cluster_id":"12585971608760269493","member_id":"13847567121247652255","revision":"%d","raft_term":"2"},"succeeded":true,"responses":[{"response_put":{"header":{"revision":"%d"}}}]}'
RANGE = '{"header":{"cluster_id":"14841639068965178418","member_id":"10276657743932975437","revision":"6","raft_term":"3"},"succeeded":true,"responses":[{"response_range":{"kvs":[{"key":"%s","create_revision":"2","mod_revision":"6","version":"4","value":"%s"}],"count":"1"}}]}'
NONE = '{"header":{"cluster_id":"14841639068965178418","member_id":"10276657743932975437","revision":"6","raft_term":"3"},"succeeded":true,"responses":[{"response_range":{"header":{"revision":"6"}}}]}'
NOT = '{"header":{"cluster_id":"12585971608760269493","member_id":"13847567121247652255","revision":"3","raft_term":"2"}}'


def ranged(key, compare=""):
    return '{"compare":[%s],"success":[{"requestRange":{"key":"%s"}}]}' % (compare, b64(key))


def written(key, value, compare):
    return '{"compare":[%s],"success":[{"requestPut":{"key":"%s","value":"%s"}}]}' % (compare, b64(key), b64(value))


def rows():
    """What is asked, byte for byte, and what is done at the answers of etcd's own documents."""
    header = struct.pack(">8sHHI5Q", b"QNSBD001", 2, 1, 0, 5000, 10000, 1000, 2000, 1000).ljust(512, b"\0")
    slot = struct.pack(">4sIQB", b"SLOT", 1, 0, 1).ljust(512, b"\0")
    mail = b"MAIL".ljust(512, b"\0")
    whole = [
        (ranged("p/0000"), RANGE % (b64("p/0000"), b64(header))),
        (ranged("p/0001"), RANGE % (b64("p/0001"), b64(slot))),
        (ranged("p/0512"), RANGE % (b64("p/0512"), b64(mail))),
    ]
    played("list", whole, 0, "node 1 incarnation 0 clean mail empty\n")
    played("list", whole[:1] + [(ranged("p/0001"), NONE)], 9, "fault BadImage sector 1\n")
    for wrong in NOT, PUT % (3, 3), RANGE % (b64("p/0002"), b64(slot)), RANGE % (b64("p/0001"), b64(slot[:511])), "{}", "x":
        played("list", whole[:1] + [(ranged("p/0001"), wrong)], 8, "fault EnvFault\n")
    none = '{"key":"%s","range_end":"%s","target":"CREATE","result":"EQUAL","create_revision":"0"}' % (b64("p/"), b64("p0"))
    own = '{"key":"%s","target":"MOD","result":"EQUAL","mod_revision":"7"}' % b64("p/0000")
    first = written("p/0000", bytes(512), none)
    played("create", [
        (first, PUT % (7, 7)),
        (written("p/0001", slot, own), PUT % (8, 8)),
        (written("p/0512", mail, own), PUT % (9, 9)),
        (written("p/0000", header, own), PUT % (10, 10)),
    ], 0, "created nodes 1\n")
    played("create", [(first, NOT)], 8, "fault EnvFault\n")
    played("create", [(first, PUT % (7, 7)), (written("p/0001", slot, own), NOT)], 8, "fault EnvFault\n")


def heads():
    """Answers as RFC 9112 has them, and such as are none."""
    header = struct.pack(">8sHHI5Q", b"QNSBD001", 2, 1, 0, 5000, 10000, 1000, 2000, 1000).ljust(512, b"\0")
    body = (RANGE % (b64("p/0000"), b64(header))).encode()
    size, field = len(body), b"Content-Length: %d\r\n" % len(body)
    end = b"\r\n" + body
    rows = [
        (True, b"HTTP/1.1 200 OK\r\n" + field + end),
        (True, b"HTTP/1.0 200 OK\r\n" + field + end),
        (True, b"HTTP/1.1 200 \r\n" + field + end),  # a reason phrase may be left out
        (True, b"HTTP/1.1 200 OK\r\ncONTENT-lENGTH:%d \t\r\n" % size + end),  # names of fields have no case, and white space may stand round a value
        (True, b"\r\nHTTP/1.1 200 OK\r\n" + field + end),  # an empty line before it is passed over
        (True, b"HTTP/1.1 200 OK\r\n" + b"".join(b"X-%d: y\r\n" % each for each in range(31)) + field + end),
        (False, b"HTTP/1.1 200 OK\r\n" + b"".join(b"X-%d: y\r\n" % each for each in range(32)) + field + end),
        (False, b"HTTP/1.1 200 OK\r\n" + end),
        (False, b"HTTP/1.1 200 OK\r\nTransfer-Encoding: chunked\r\n\r\n%x\r\n%s\r\n0\r\n\r\n" % (size, body)),
        (False, b"HTTP/1.1 200 OK\r\nContent-Length: -1\r\n" + end),
        (False, b"HTTP/1.1 200 OK\r\nContent-Length: 0x%x\r\n" % size + end),
        (False, b"HTTP/1.1 200 OK\r\nContent Length: %d\r\n" % size + end),
        (False, b"HTTP/1.1 200 OK\r\n" + field + end + b"x"),
        (False, (b"HTTP/1.1 200 OK\r\n" + field + end) * 2),
        (False, b"HTTP/1.1 200 OK\r\n" + field + end[:-1]),
        (False, b"HTTP/1.1 200 OK\r\nContent-Length: %d\r\n" % (size + 1) + end),
        (False, b"HTTP/1.1 100 Continue\r\n\r\nHTTP/1.1 200 OK\r\n" + field + end),
        (False, b"HTTP/1.1 201 Created\r\n" + field + end),
        (False, b"HTTP/1.1 400 Bad Request\r\n" + field + end),
        (False, b"HTTP/1.1 503 Service Unavailable\r\n" + field + end),
        (False, b"HTTP/2 200\r\n" + field + end),
        (False, b"HTTP/1.1 20 OK\r\n" + field + end),
        (False, b"HTTP/1.1 200 OK\r\n" + b"Content-Length: 1\r\n\r\n\xff"),
        (False, body),
        (False, b""),
    ]
    for is_taken, answer in rows:
        said = (0, "version 2\nnodes 1\nwatchdog 5000\nmsgwait 10000\nloop 1000\nread_limit 2000\nfeed_delay 1000\nsafe yes\n")
        try:
            played("dump", [(ranged("p/0000"), answer)], *(said if is_taken else (8, "fault EnvFault\n")))
        except Wrong as wrong:
            raise Wrong("%r: %s" % (answer[:80], wrong)) from wrong


def played(command, steps, status, said):
    """A command before a server that wants these requests, each over a connection of its own, and gives these answers: bodies, or bytes whole."""
    asked = []
    listener = socket.socket()
    listener.bind(("127.0.0.1", 0))
    listener.listen()
    host = "127.0.0.1:%d" % listener.getsockname()[1]

    def serve():
        for body, answer in steps:
            wanted = "POST /v3/kv/txn HTTP/1.1\r\nHost: %s\r\nConnection: close\r\nContent-Type: application/json\r\nContent-Length: %d\r\n\r\n%s" % (host, len(body), body)
            got = b""
            while not got:  # at its opening nothing is asked
                connection, _ = listener.accept()
                got = connection.makefile("rb").read(len(wanted))
            asked.append((got.decode(), wanted))
            whole = answer if isinstance(answer, bytes) else b"HTTP/1.1 200 OK\r\nContent-Type: application/json\r\nContent-Length: %d\r\n\r\n%s" % (len(answer), answer.encode())
            connection.sendall(whole)
            connection.close()

    threading.Thread(target=serve, daemon=True).start()
    with open(TOP + "/examples/one-node.conf") as conf:
        done = subprocess.run([QUORUMD, command, "--image", "etcd:%s/p" % host], stdin=conf, stdout=subprocess.PIPE, stderr=subprocess.PIPE, check=False)
    for got, wanted in asked:
        same("request", got, wanted)
    same("requests", len(asked), len(steps))
    same(command, (done.returncode, done.stdout.decode()), (status, said))


def prefix_in_use():
    """A create where any key of the prefix is changes nothing."""
    keys = Keys(HOST)
    for name in "0000", "0700", "writer/01", "z":
        prefix = "used/" + name.replace("/", "-")
        keys.put("%s/%s" % (prefix, name), b"x" * 512)
        before = keys.all(prefix)
        status, said, why = said_of("create", "etcd:%s/%s" % (HOST, prefix))
        same("create beside " + name, (status != 0, why), (True, "quorumd: etcd:%s/%s: there are keys of this prefix already\n" % (HOST, prefix)))
        same("the keys beside " + name, keys.all(prefix), before)
    whole = "etcd:%s/used/whole" % HOST
    same("create", said_of("create", whole), (0, "created nodes 2\n", ""))
    before = keys.all("used/whole")
    same("create again", said_of("create", whole)[0] != 0, True)
    same("its keys", keys.all("used/whole"), before)
    same("create beside", said_of("create", "etcd:%s/used/whole2" % HOST), (0, "created nodes 2\n", ""))


def one_node():
    """A node holds, is told to leave and sets its writer's key free."""
    cluster = EtcdCluster("one", ids=(1,))
    node = cluster.node(1)
    node.waits_for("start: ok")
    token = cluster.writer(1)
    same("the token", re.fullmatch(MACHINE + r" [0-9a-f-]{36} [0-9a-f-]{36}", token) is not None, True)
    cluster.message(1, "exit")
    same("answer", node.end(), (0, "left clean\n"))
    same("what it did", [line for line in node.said() if line.endswith(": ok")], [node.opened() + "ok", "start: ok", "stop: ok", "disarm: ok"])
    same("the writer's key", cluster.writer(1), "free")


def late_write():
    """A write of an earlier boot, which comes after the next one has opened, changes nothing, and neither does its read."""
    cluster = EtcdCluster("late", ids=(1,))
    node = cluster.node(1)
    node.waits_for("start: ok")
    token = cluster.writer(1)
    node.kill()
    node.end()
    node = cluster.node(1)
    node.waits_for("start: ok")
    before = cluster.keys.all(cluster.prefix)
    same("another token", cluster.writer(1) == token, False)
    for key in "0001", "0512":
        said = cluster.keys.ask("txn", {
            "compare": [{"key": text(cluster.prefix + "/writer/00"), "target": "VALUE", "result": "EQUAL", "value": text(token)}],
            "success": [{"requestPut": {"key": text("%s/%s" % (cluster.prefix, key)), "value": text(b"x" * 512)}}],
        })
        same("the late write", said.get("succeeded", False), False)
    for key in "0001", "0512", "writer/00":
        name = "%s/%s" % (cluster.prefix, key)
        same(name, cluster.keys.get(name), before.get(name))
    node.kill()


def second_start():
    """A second start of an id on another port: from its opening on the first one reads and writes nothing, and is fed no more."""
    cluster = EtcdCluster("second", ids=(1,))
    first = cluster.node(1)
    first.waits_for("start: ok")
    second = cluster.node(1, port=free_ports(1), watchdog=cluster.folder / "watchdog.second", resource=cluster.folder / "resource.second")
    second.waits_for("start: ok")
    why = "etcd:%s/%s: a later start of this node reads and writes now" % (HOST, cluster.prefix)
    wait_for("the first one says why", lambda: why in first.said())
    fed = cluster.watchdog(1)
    time.sleep(3)
    same("the feeds of the first one", cluster.watchdog(1), fed)
    same("the second one", second.runs(), True)
    first.kill()
    cluster.message(1, "exit")
    same("answer", second.end(), (0, "left clean\n"))


def another_machine():
    """A node of another machine that has not left is not opened, and nothing changes; once the key is away it is."""
    cluster = EtcdCluster("another", ids=(1,))
    key = cluster.prefix + "/writer/00"
    other = "0123456789abcdef0123456789abcdef"
    for token in "%s boot start" % other, other, MACHINE, MACHINE + "x boot start", "free ", "x":
        cluster.keys.put(key, token)
        before = cluster.keys.all(cluster.prefix)
        node = cluster.node(1)
        same(token, node.end()[0], 8)
        machine = token.split(" ")[0]
        same("said of " + token, node.said()[0], "%s is of machine %s: etcdctl del %s once that is off" % (key, machine, key))
        same("keys", cluster.keys.all(cluster.prefix), before)
        same("its watchdog", cluster.watchdog(1), "")
    cluster.keys.put(key, "free")
    node = cluster.node(1)
    node.waits_for("start: ok")
    node.kill()


def two_nodes():
    """The one that holds is killed, and the other one resets it and follows."""
    cluster = EtcdCluster("two", ids=(1, 2, 3))
    nodes = {ident: cluster.node(ident) for ident in (1, 2, 3)}
    nodes[1].waits_for("start: ok")
    nodes[1].kill()
    nodes[2].waits_for("start: ok")
    wait_for("its reset", lambda: cluster.has_written_reset(2, 1))
    for ident in (2, 3):
        cluster.message(ident, "exit")


def three_images():
    """A node on three images in the cluster, of which one has no server."""
    folder = pathlib.Path("three")
    folder.mkdir()
    images = ["etcd:%s/three/%s" % (HOST, each) for each in "abc"]
    for image in images:
        same("create", said_of("create", image), (0, "created nodes 2\n", ""))
    images[2] = "etcd:127.0.0.1:1/three/c"
    for name in "three/w", "three/r":
        pathlib.Path(name).touch()
    done = subprocess.run([QUORUMD, "--open", "node3", "--id", "1", "--image", ",".join(images), "--watchdog", "three/w", "--resource", "three/r",
                           "--port", str(free_ports(2)), "--turns", "20"], stdin=open(TOP + "/examples/two-node.conf"),
                          stdout=subprocess.PIPE, stderr=subprocess.PIPE, check=False)
    lost = "quorumd: %s: Connection refused (os error 111)\n" % images[2]
    same("the lost one is said", lost in done.stderr.decode(), True)
    same("it runs", done.stdout.decode().startswith("turns 20") or done.returncode in (0, 8, 14), True)


def one_request_fails(fate, number, wanted):
    """A request of a `create` fails in this way: it says so, and the image is none or the whole one, or it is done."""
    what, keys, prefix = "%s %d" % (fate, number), Keys(HOST), "fails/%s-%d" % (fate, number)
    crooked = Crooked(HOST, lambda count: fate if count == number else None)
    status, said, why = said_of("create", "etcd:%s/%s" % (crooked.at, prefix))
    found = {key.rsplit("/", 1)[1]: value for key, (value, _) in keys.all(prefix).items()}
    if status == 0:  # a command waits longer than for such an answer
        same(what + " is done", (fate in ("doubled", "late"), found == wanted, why), (True, True, ""))
        return
    same(what + " is said", (said, why.count("\n")), ("fault EnvFault\n", 1))
    header = found.get("0000", bytes(512))
    same(what + " has no header, or is whole", header == bytes(512) or found == wanted, True)
    for key, value in found.items():
        same("%s sector %s" % (what, key), value in (wanted[key], bytes(512)), True)


def each_request_fails():
    whole = "etcd:%s/fails/whole" % HOST
    same("create", said_of("create", whole), (0, "created nodes 2\n", ""))
    wanted = {key.rsplit("/", 1)[1]: value for key, (value, _) in Keys(HOST).all("fails/whole").items()}
    with concurrent.futures.ThreadPoolExecutor(8) as pool:
        tries = [pool.submit(one_request_fails, fate, number, wanted) for fate in Crooked.FATES for number in (1, 2, 4, 6)]
        for each in tries:
            each.result()


def times_that_an_election_outlasts():
    """`quorumctl check` says so of a watchdog's time below 9 s, and ends as it does without."""
    image = "etcd:%s/test/election" % HOST
    line = "warning: an election of etcd may take 9000 ms, and the watchdog's time is 5000 ms: each node is reset then. Give each member --pre-vote, or the image longer times"
    for timing, said in ("5000,10000,1000,2000,1000", [line]), ("9000,20000,1000,2000,1000", []):
        subprocess.run([QUORUMD, "create", "--image", image, "--timing", timing], stdin=open(TOP + "/examples/two-node.conf"), stdout=subprocess.DEVNULL,
                       stderr=subprocess.DEVNULL, check=True)
        done = subprocess.run([os.environ["QUORUMCTL"], "check", "--image", image], stdin=subprocess.DEVNULL, capture_output=True, check=False)
        same(timing, (done.returncode, [line for line in done.stdout.decode().splitlines() if "election" in line]), (0, said))
        Keys(HOST).delete("test/election")


try_all(rows, heads, words_that_are_none, prefix_in_use, one_node, late_write, second_start, another_machine, two_nodes, three_images, each_request_fails, times_that_an_election_outlasts)
