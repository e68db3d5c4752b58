"""A read of standard input and a write of standard output that are interrupted: each is made again, 999 times, and the next interruption is
a fault. The interruptions are the system's own: a call on a socket with a limit of time, which waits, ends with EINTR where its process was
stopped and goes on (signal(7))."""
import os
import signal
import socket
import struct
import subprocess
import sys
import time

PROGRAM = os.environ["QUORUMD"]
HOUR = struct.pack("ll", 3600, 0)


def state_of(process):
    with open("/proc/%d/stat" % process.pid) as file:
        stat = file.read()
    return stat[stat.rindex(")") + 2]


def wait_until(process, state):
    """Waits until the process waits in a call (S), or is stopped (T)."""
    last = time.monotonic() + 60
    while state_of(process) != state:
        if time.monotonic() > last:
            sys.exit("in 60 seconds the process is never %s" % state)
        time.sleep(0.0001)


def interrupt(process):
    """Interrupts the call in which the process waits."""
    wait_until(process, "S")
    process.send_signal(signal.SIGSTOP)
    wait_until(process, "T")
    process.send_signal(signal.SIGCONT)


def limited_pair(limit):
    """Two ends of a connection; calls on the first have this limit of time."""
    limited, other = socket.socketpair()
    limited.setsockopt(socket.SOL_SOCKET, limit, HOUR)
    return limited, other


def want(what, got, wanted):
    if got != wanted:
        sys.exit("%s:\nwanted %r\ngot    %r" % (what, wanted, got))


def read_interrupted(times):
    """How `count` ends where its read is interrupted so often before a line comes."""
    source, writer = limited_pair(socket.SO_RCVTIMEO)
    process = subprocess.Popen([PROGRAM, "count"], stdin=source, stdout=subprocess.PIPE, stderr=subprocess.PIPE)
    for _ in range(times):
        interrupt(process)
    if times < 1000:
        wait_until(process, "S")
        writer.sendall(b"node 1 1\nview 7 1\n")
        writer.shutdown(socket.SHUT_WR)
    said, errors = process.communicate(timeout=60)
    return process.returncode, said, errors


def write_interrupted(times):
    """How `help` ends where its write is interrupted so often before there is room."""
    sink, reader = limited_pair(socket.SO_SNDTIMEO)
    try:
        while True:
            sink.send(b"-", socket.MSG_DONTWAIT)
    except BlockingIOError:
        pass
    process = subprocess.Popen([PROGRAM, "help"], stdin=subprocess.DEVNULL, stdout=sink, stderr=subprocess.PIPE)
    sink.close()
    for _ in range(times):
        interrupt(process)
    if times < 1000:
        wait_until(process, "S")
    said = b""
    while True:
        piece = reader.recv(4096)
        if not piece:
            break
        said += piece
    errors = process.communicate(timeout=60)[1]
    return process.returncode, said.lstrip(b"-"), errors


COUNTED = b"view 7 votes 1 quorum 1 quorate yes\nend 1\n"
HELP = subprocess.run([PROGRAM, "help"], stdout=subprocess.PIPE).stdout
want("a read that is interrupted 999 times", read_interrupted(999), (0, COUNTED, b""))
want("a read that is interrupted 1000 times", read_interrupted(1000),
     (6, b"fault ReadFault\n", b"quorumd: standard input: operation interrupted\n"))
want("a write that is interrupted 999 times", write_interrupted(999), (0, HELP, b""))
want("a write that is interrupted 1000 times", write_interrupted(1000),
     (7, b"", b"quorumd: standard output: operation interrupted\n"))
