"""The bytes of a poll and of its reply, by docs/dev/PACKETS.md, written a second time for tests, and of the seal around a packet."""
import hashlib
import hmac
import struct


def poll(rank, number, members, incarnation=1, install=1):
    return b"QN\x06" + bytes([rank]) + struct.pack(">QQQQI", number, incarnation, install, 7, members)


def reply(rank, number, agrees, incarnation=1, install=1):
    return b"QN\x07" + bytes([rank]) + struct.pack(">QQQ", number, incarnation, install) + bytes([agrees])


def sealed(secret, text, rank, to, number, packet, boot=1):
    head = b"QN" + bytes([32, hmac.new(secret, b"", hashlib.sha256).digest()[0], rank, to]) + struct.pack(">QQ", boot, number) + packet
    return head + hmac.new(secret, text + head, hashlib.sha256).digest()
