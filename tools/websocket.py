"""A client for WebSocket (RFC 6455), written by hand: the request of the opening handshake, and frames."""

import base64
import hashlib
import os

TEXT, BINARY, CLOSE, PING, PONG = 1, 2, 8, 9, 10  # opcodes (section 5.2)
MORE = 0  # the opcode of the frames after the first of a message
NAME = b"258EAFA5-E914-47DA-95CA-C5AB0DC85B11"  # what an accepted key is hashed with (section 1.3)


def new_key():
    return base64.b64encode(os.urandom(16))


def request(key, *fields):
    """Returns a request of the opening handshake (section 4.1) with these further fields."""
    lines = [b"GET /ndn HTTP/1.1", b"Host: node.example", b"Upgrade: websocket", b"Connection: keep-alive, Upgrade",
             b"Sec-WebSocket-Version: 13", b"Sec-WebSocket-Key: " + key, *fields, b"", b""]
    return b"\r\n".join(lines)


def accepts(head, key):
    """Returns whether this head of a response accepts the request with this key (section 4.2.2)."""
    lines = head.split(b"\r\n")
    wanted = base64.b64encode(hashlib.sha1(key + NAME).digest())
    fields = {name.strip().lower(): value.strip() for name, _, value in (line.partition(b":") for line in lines[1:])}
    return (lines[0].startswith(b"HTTP/1.1 101 ") and fields.get(b"sec-websocket-accept") == wanted
            and fields.get(b"upgrade", b"").lower() == b"websocket" and fields.get(b"connection", b"").lower() == b"upgrade"
            and b"sec-websocket-extensions" not in fields and b"sec-websocket-protocol" not in fields)


def masked(octets, key):
    return (int.from_bytes(octets, "big") ^ int.from_bytes((key * (len(octets) // 4 + 1))[: len(octets)], "big")).to_bytes(
        len(octets), "big")


def frame(opcode, octets, last=True, mask=True, reserved=0):
    """Returns a frame (section 5.2). `last` is whether it ends its message."""
    size = len(octets)
    start = bytes(((128 if last else 0) | reserved << 4 | opcode,))
    bit = 128 if mask else 0
    if size < 126:
        start += bytes((bit | size,))
    elif size < 65_536:
        start += bytes((bit | 126,)) + size.to_bytes(2, "big")
    else:
        start += bytes((bit | 127,)) + size.to_bytes(8, "big")
    if not mask:
        return start + octets
    key = os.urandom(4)
    return start + key + masked(octets, key)


def take_frame(octets):
    """Takes the first frame of a server, if it is whole: its opcode and its octets. Raises ValueError if it is masked,
    has reserved bits, does not end its message, or has a length that is not in its shortest form."""
    if len(octets) < 2:
        return None
    size, at = octets[1], 2
    if octets[0] & 0x70 or not octets[0] & 0x80 or size & 0x80:
        raise ValueError(f"no frame of a server: {bytes(octets[:12]).hex()}")
    if size >= 126:
        at = 4 if size == 126 else 10
        if len(octets) < at:
            return None
        size = int.from_bytes(octets[2:at], "big")
        if size < (126 if at == 4 else 65_536):
            raise ValueError(f"no shortest length: {bytes(octets[:12]).hex()}")
    if len(octets) < at + size:
        return None
    found = octets[0] & 15, bytes(octets[at : at + size])
    del octets[: at + size]
    return found
