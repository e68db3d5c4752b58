"""For the scripts of this folder: what a settings text says, in bytes, spelled from docs/dev/PACKETS.md a second time, and the tag of a packet."""
import hashlib
import hmac
import ipaddress

SEAL_MEANING = "--seal-meaning"


def fields(*numbers):
    """Numbers of these widths in bytes, the high byte first."""
    return b"".join(number.to_bytes(width, "big") for width, number in numbers)


def address(text):
    packed = ipaddress.ip_address(text).packed
    return bytes([4 if len(packed) == 4 else 6]) + packed.rjust(16, b"\0")


def node_bytes(ident, at, votes=1, fence_delay=0):
    return fields((4, ident), (4, votes), (8, fence_delay)) + address(at)


def tag_of(key, text, sealed):
    """The tag of the bytes before it, under the key of that file and beside that text."""
    return hmac.new(hashlib.sha256(key).digest(), hashlib.sha256(text).digest() + sealed, hashlib.sha256).digest()
