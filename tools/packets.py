"""Encodes packets, rules and the lines of key files, for other programs of this folder.

NDN Packet Format 0.3 and NDNLPv2 define the packets, `docs/MANAGEMENT.md` defines the commands, and `docs/RULES.md`
defines the rules and the key files. A name is a tuple of components, and each component is a complete TLV element. The
module uses no code and no output of a node.
"""

import hashlib
import hmac

GENERIC, DIGEST = 8, 2
SEGMENT, VERSION = 50, 54
PIT_TOKEN = 98
DUPLICATE, NO_ROUTE = 100, 150
LONGEST_PACKET = 8800
MOST_COMPONENTS = 64
STRATEGIES = "/localhost/nfd/strategy/"


def var_number(n):
    """Encodes n as a VAR-NUMBER in its shortest form."""
    if n < 253:
        return bytes((n,))
    if n < 0x10000:
        return b"\xfd" + n.to_bytes(2, "big")
    if n < 0x100000000:
        return b"\xfe" + n.to_bytes(4, "big")
    return b"\xff" + n.to_bytes(8, "big")


def tlv(kind, *parts):
    """Encodes an element of the type `kind`. Its value is the concatenation of `parts`."""
    value = b"".join(parts)
    return var_number(kind) + var_number(len(value)) + value


def integer(kind, n):
    """Encodes an element of the type `kind`, whose value is n as a NonNegativeInteger in its
    shortest form. Raises ValueError if n has more than 64 bits."""
    for width in (1, 2, 4, 8):
        if n < 1 << 8 * width:
            return tlv(kind, n.to_bytes(width, "big"))
    raise ValueError("above 64 bits")


def name(text):
    """Returns the name that a URI stands for. All components must be generic, and must not contain escapes."""
    return tuple(tlv(GENERIC, part.encode()) for part in text.split("/") if part)


def words(*octets):
    """Returns the name that consists of generic components with these values."""
    return tuple(tlv(GENERIC, part) for part in octets)


class Key:
    """An HMAC key: its name, as a URI and as a tuple of components, and its octets."""

    def __init__(self, uri, octets):
        self.uri, self.name, self.octets = uri, name(uri), octets

    def line(self):
        """Returns the line of the key in a key file."""
        return f"{self.uri} {self.octets.hex()}\n"


def signature_info(kind, key, time=None, number=None):
    """Encodes a SignatureInfo (`kind` 22) or an InterestSignatureInfo (`kind` 44). The signature type is HmacWithSha256
    with the name of `key` in the KeyLocator, or DigestSha256 if `key` is None. `time` is the SignatureTime, and
    `number` is the SignatureSeqNum. If `time` or `number` is None, its field is left out."""
    parts = [integer(27, 0 if key is None else 4)]
    if key is not None:
        parts.append(tlv(28, tlv(7, *key.name)))
    if time is not None:
        parts.append(integer(40, time))
    if number is not None:
        parts.append(integer(42, number))
    return tlv(kind, *parts)


def tag(key, covered):
    """Returns the signature value over `covered`: the HMAC under the key, or the SHA-256 digest if `key` is None."""
    if key is None:
        return hashlib.sha256(covered).digest()
    return hmac.digest(key.octets, covered, "sha256")


def interest(of, nonce, can_be_prefix=False, must_be_fresh=False, lifetime=None, hop_limit=None, extra=b""):
    """Encodes an unsigned Interest. `extra` is inserted between the flags and the Nonce, where a ForwardingHint has its
    place."""
    return tlv(
        5,
        tlv(7, *of),
        tlv(33) if can_be_prefix else b"",
        tlv(18) if must_be_fresh else b"",
        extra,
        tlv(10, nonce.to_bytes(4, "big")),
        b"" if lifetime is None else integer(12, lifetime),
        b"" if hop_limit is None else tlv(34, bytes((hop_limit,))),
    )


def data(of, content=b"", freshness=None, key=None, wrong=False):
    """Encodes a Data, signed with `key`, or with a SHA-256 digest if `key` is None. With `wrong`, one bit of the
    signature value is inverted."""
    covered = tlv(7, *of)
    if freshness is not None:
        covered += tlv(20, integer(25, freshness))
    covered += tlv(21, content) + signature_info(22, key)
    value = tag(key, covered)
    if wrong:
        value = bytes((value[0] ^ 1,)) + value[1:]
    return tlv(6, covered, tlv(23, value))


def command(of, nonce, key, time, number=None, wrong=False):
    """Encodes a signed Interest with empty ApplicationParameters. Its name is `of`, followed by the digest of the
    parameters. `key` and `wrong` are as in `data`; `time` and `number` are as in `signature_info`."""
    later = tlv(36) + signature_info(44, key, time, number)
    value = tag(key, b"".join(of) + later)
    if wrong:
        value = value[:-1] + bytes((value[-1] ^ 1,))
    later += tlv(46, value)
    whole = of + (tlv(DIGEST, hashlib.sha256(later).digest()),)
    return tlv(5, tlv(7, *whole), tlv(10, nonce.to_bytes(4, "big")), later)


def node_name(verb, of=None, face=None, cost=None, strategy=None, count=None, origin=None, flags=None, expires=None):
    """Returns the name of a command to the node, including the ControlParameters, but without a digest. `verb` has the
    module and the verb, for example `fib/add-nexthop`. The ControlParameters have no field for an argument that is
    None."""
    fields = [] if of is None else [tlv(7, *of)]
    for kind, value in ((105, face), (111, origin), (106, cost), (108, flags)):
        if value is not None:
            fields.append(integer(kind, value))
    if strategy is not None:
        fields.append(tlv(107, tlv(7, *strategy)))
    for kind, value in ((109, expires), (132, count)):
        if value is not None:
            fields.append(integer(kind, value))
    return name("/localhost/nfd/" + verb) + (tlv(GENERIC, tlv(104, *fields)),)


def repository_name(verb, of, can_be_prefix=False, lifetime=None, prefix="/repo"):
    """Returns the name of a command to the repository, including its parameters, but without a digest."""
    fields = [tlv(7, *of)]
    if can_be_prefix:
        fields.append(tlv(33))
    if lifetime is not None:
        fields.append(integer(12, lifetime))
    return name(prefix) + words(verb.encode(), tlv(201, *fields))


def link(packet, *headers):
    """Encodes a link packet with the given header fields and with `packet` as its Fragment."""
    return tlv(100, *headers, tlv(80, packet))


def with_token(packet, token):
    """Encodes a link packet with a PIT token and with `packet` as its Fragment."""
    return link(packet, tlv(PIT_TOKEN, token))


def nack(reason, of, *headers):
    """Encodes a link packet. It has the given header fields, then a Nack field with `reason`, and then the Interest
    `of` as its Fragment."""
    return link(of, *headers, tlv(800, integer(801, reason)))


def rule(identity, kind, prefix=None, key=None, hierarchical=False):
    """Returns the text of a rule with one checker. `identity` is the rule's `id`, and `kind` is `interest` or `data`.
    The rule applies to names under `prefix`, or to all names if `prefix` is None. The checker is hierarchical if
    `hierarchical` is set. Otherwise it requires an HMAC under `key`, or a SHA-256 digest if `key` is None."""
    lines = ["rule {", f"  id {identity}", f"  for {kind}"]
    if prefix is not None:
        lines += ["  filter {", "    type name", f"    name {prefix}", "    relation is-prefix-of", "  }"]
    lines.append("  checker {")
    if hierarchical:
        lines += ["    type hierarchical"]
    elif key is None:
        lines += ["    type customized", "    sig-type sha256"]
    else:
        lines += ["    type customized", "    key-locator {", "      type name"]
        lines += [f"      name {key.uri}", "      relation equal", "    }"]
    return "\n".join(lines + ["  }", "}", ""])
