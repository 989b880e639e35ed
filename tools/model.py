"""A simple model of a node, for `damaged`. It computes the answer that the documents require for an event.

The model follows `docs/SCRIPTS.md` ("What the node does with a packet"), `docs/MANAGEMENT.md` and
`docs/RULES.md`, as far as the cases of `damaged` require. It keeps its state in dictionaries and
lists, and reads packets with `grammar`.

- The only strategy is best-route.
- The only commands are `fib/add-nexthop`, `fib/remove-nexthop` and those of the repository.
- The cache and the PIT have no limits.

The model raises `Beyond` for a face that cannot be opened, for an allowed command with a verb that is not listed above,
and for an Interest for the list of strategies.
"""

import hashlib
import hmac

import grammar as g
import packets as p

LOCALHOST, NFD = p.name("/localhost"), p.name("/localhost/nfd")
REPOSITORY = {p.name("/repo/" + verb): verb for verb in ("insert", "delete", "check")}
DUPLICATE = 100
CLOCKS_DIFFER = 120_000
LAST_MOMENT = (1 << 64) - 1
SEGMENT = 4096


class Beyond(Exception):
    """The model does not support the event."""


class Rule:
    """A rule for names under `prefix`. If `checks` is true, the rule has one checker, which
    requires an HMAC under `key`, or a SHA-256 digest if `key` is None. Otherwise the rule has no
    checker, and denies each packet to which it applies."""

    def __init__(self, identity, kind, prefix=(), key=None, checks=True):
        self.identity, self.kind, self.prefix, self.key, self.checks = identity, kind, prefix, key, checks

    def reason(self, keys, signature):
        """Returns the reason for which the rule denies a packet with this signature, or None if the rule allows it.
        `keys` maps the names of the known keys to their octets."""
        if not self.checks:
            return "KeyLocator"
        if signature.kind != (0 if self.key is None else 4):
            return "SigType"
        if self.key is None:
            right = hashlib.sha256(signature.covered).digest()
        else:
            if signature.key != self.key:
                return "KeyLocator"
            if self.key not in keys:
                return "KeyUnknown"
            right = hmac.digest(keys[self.key], signature.covered, "sha256")
        return None if signature.value == right else "Tag"


class Entry:
    """A PIT entry, which is for one name and one combination of flags. `askers` has the in-records by face, and `asked`
    has the out-records by face."""

    def __init__(self):
        self.askers, self.asked = {}, {}


class Asker:
    """An in-record of a face: the Nonce, octets, deadline and PIT token of the last Interest that
    arrived on this face for the PIT entry."""

    def __init__(self, nonce, whole, deadline, token):
        self.nonce, self.whole, self.deadline, self.token = nonce, whole, deadline, token


class Asked:
    """An out-record of a face: the Nonce of the last Interest that was sent to this face for the
    PIT entry, the moment at which this Interest was sent, and the reason of the Nack that came back
    for it, or None if no Nack came back."""

    def __init__(self, nonce, moment):
        self.nonce, self.moment, self.reason = nonce, moment, None


def wrapped(packet, token, reason=None):
    """Returns the octets to send to a face. `token` is the PIT token of the face's Interest, or None. `reason` is the
    reason of a Nack, or None for a Data. If `token` and `reason` are both None, the packet is sent bare, otherwise in a
    link packet."""
    if token is None and reason is None:
        return packet
    headers = [] if token is None else [p.tlv(98, token)]
    if reason is not None:
        headers.append(p.tlv(800, p.integer(801, reason)))
    return p.link(packet, *headers)


def made(name, content, between=b""):
    """Encodes a Data that the node makes, signed with a SHA-256 digest. `between` is the encoded MetaInfo, or empty."""
    covered = p.tlv(7, *name) + between + p.tlv(21, content) + p.tlv(22, p.integer(27, 0))
    return p.tlv(6, covered, p.tlv(23, hashlib.sha256(covered).digest()))


def status_content(status, text, body=b""):
    """Encodes the Content of the node's reply to a command. `body` is an encoded element, or empty."""
    return p.tlv(101, p.integer(102, status), p.tlv(103, text.encode()), body)


def repository_content(status, text, count=0):
    """Encodes the Content of the repository's reply to a command."""
    return p.tlv(207, p.integer(208, status), p.tlv(103, text.encode()), p.integer(132, count))


def first_fields(component, kind):
    """Reads the parameters of a command, which are in a component of its name. Returns a dictionary that maps each type
    to the value of the first field of this type. The component must be generic, and its value must be exactly one
    element of the type `kind`, which contains the fields. Otherwise raises Fault."""
    if g.kind_of(component) != p.GENERIC:
        raise g.Fault("BadField")
    value = g.element(component).value
    outer = g.element(value)
    if outer.kind != kind or outer.end != len(value):
        raise g.Fault("BadField")
    fields = {}
    for one in g.elements(outer.value):
        fields.setdefault(one.kind, one.value)
    return fields


class Node:
    """The state of the node.

    `now` is the node's time, and `up` maps the open faces to their scopes. `version` is the version
    number that the node gives to its list of routes (/localhost/nfd/fib/list). `hops` maps a name
    to the costs of its next hops, by face. `pending` maps the name, the CanBePrefix and the
    MustBeFresh of Interests to their PIT entry. `cached` has pairs of a cached Data and the moment
    at which it arrived. `last` maps a signer to the signature time of its last allowed command, and
    to the last sequence number, if any, of its allowed commands. `wants` maps the name and the
    CanBePrefix of a pending insert to its deadline. `objects` maps full names to stored Data.
    """

    def __init__(self, rules, keys):
        self.rules, self.keys = rules, keys
        self.now, self.up, self.version = 0, {}, 0
        self.hops, self.pending, self.cached, self.last = {}, {}, [], {}
        self.wants, self.objects = {}, {}

    # Events. `opens`, `closes`, `takes_rules` and `receives` return the verdict, and the list of the packets that the
    # node sends. Each packet is a pair of a face and octets.

    def passes(self, moment):
        """Advances the node's time to `moment` if `moment` is later. Removes the in-records and the pending inserts
        that have expired, and the PIT entries that then have no in-records."""
        self.now = max(self.now, moment)
        for entry in self.pending.values():
            entry.askers = {face: one for face, one in entry.askers.items() if one.deadline > self.now}
        self.wants = {want: deadline for want, deadline in self.wants.items() if deadline > self.now}
        self.sweep()

    def sweep(self):
        """Removes the PIT entries without in-records."""
        self.pending = {key: entry for key, entry in self.pending.items() if entry.askers}

    def opens(self, face, scope, moment):
        self.passes(moment)
        if face == 0 or face in self.up or len(self.up) == 64:
            raise Beyond("a face that does not open")
        self.up[face] = scope
        return "passed", []

    def closes(self, face, moment):
        self.passes(moment)
        if face not in self.up:
            return "dropped NoFace", []
        del self.up[face]
        self.version += 1
        for hops in self.hops.values():
            hops.pop(face, None)
        self.hops = {name: hops for name, hops in self.hops.items() if hops}
        for entry in self.pending.values():
            entry.askers.pop(face, None)
            entry.asked.pop(face, None)
        self.sweep()
        return "passed", []

    def takes_rules(self, rules, keys, moment):
        self.passes(moment)
        self.rules, self.keys = rules, keys
        return "passed", []

    def receives(self, face, moment, octets):
        self.passes(moment)
        if face not in self.up:
            return "dropped NoFace", []
        try:
            frame = g.read(octets)
        except g.Fault as fault:
            return f"dropped Malformed {fault}", []
        if frame.packet is None:
            return "dropped Idle", []
        packet = frame.packet
        if isinstance(packet, g.Interest) and frame.reason is g.NO_NACK and g.hop_limit(packet) == 0:
            return "dropped HopLimit", []
        if g.begins(packet.name, LOCALHOST) and self.up[face] == "far":
            return "dropped Scope", []
        if frame.reason is not g.NO_NACK:
            return self.nack(face, packet, frame.reason)
        if isinstance(packet, g.Data):
            return self.data(face, packet)
        return self.interest(face, packet, frame.token)

    # Interests.

    def interest(self, face, interest, token):
        segment = self.segment_asked(interest)
        if segment is not None:
            whole = self.segment(*segment)
            return ("dropped NoSegment", []) if whole is None else ("passed", [(face, wrapped(whole, token))])
        name = interest.name
        if g.begins(name, NFD) or any(g.begins(name, verb) for verb in REPOSITORY):
            return self.command(face, interest, token)
        key = (name, interest.can_be_prefix, interest.must_be_fresh)
        entry = self.pending.get(key)
        if entry is not None and self.loops(entry, face, interest.nonce):
            return "dropped Loop", [(face, wrapped(interest.whole, token, DUPLICATE))]
        found = self.found(*key) or self.stored(*key[:2])
        if found is not None:
            return "passed", [(face, wrapped(found, token))]
        return self.forward(key, face, interest, token)

    def loops(self, entry, face, nonce):
        """Returns whether an Interest with this Nonce, which arrives on `face`, loops."""
        own = entry.askers.get(face)
        if own is not None and own.nonce == nonce:
            return False
        others = [one.nonce for asker, one in entry.askers.items() if asker != face]
        return nonce in others + [one.nonce for one in entry.asked.values()]

    def found(self, name, can_be_prefix, must_be_fresh):
        """Returns the octets of a cached Data that answers an Interest with this name and these flags, or None. If
        several Data answer, chooses the one whose full name is first in canonical order."""
        best = None
        for data, came in self.cached:
            fresh = not must_be_fresh or self.now < min(came + data.freshness, LAST_MOMENT)
            if g.answers(data, name, can_be_prefix) and fresh:
                if best is None or g.order(g.full_name(data)) < g.order(g.full_name(best)):
                    best = data
        return None if best is None else best.whole

    def stored(self, name, can_be_prefix):
        """Returns the octets of a stored Data that answers an Interest with this name and this CanBePrefix, or None. If
        several Data answer, chooses the one whose full name is first in canonical order."""
        found = [full for full, data in self.objects.items() if g.answers(data, name, can_be_prefix)]
        return self.objects[min(found, key=g.order)].whole if found else None

    def longest(self, name):
        """Takes the longest of those prefixes of the name that have next hops, and returns its next hops. The result
        maps faces to costs, and is empty if no prefix has next hops."""
        return next((self.hops[name[:n]] for n in range(len(name), -1, -1) if name[:n] in self.hops), {})

    def eligible(self, name, asker, local_alone):
        """Returns the next hops to which an Interest with this name may be sent, as pairs of a cost and a face, sorted.
        Leaves out the face `asker`. Leaves out far faces if `local_alone` is true or the name is under /localhost."""
        local_alone = local_alone or g.begins(name, LOCALHOST)
        hops = sorted((cost, hop) for hop, cost in self.longest(name).items())
        return [(cost, hop) for cost, hop in hops if hop != asker and not (local_alone and self.up[hop] == "far")]

    def forward(self, key, face, interest, token):
        """Sends an Interest back in a Nack if it has no eligible next hop. Otherwise records it in
        its PIT entry, and forwards it to the next hop, if any, that `best_route` chooses. `key` is
        the name and the flags of the Interest."""
        entry = self.pending.get(key, Entry())
        limit = g.hop_limit(interest)
        eligible = self.eligible(key[0], face, limit == 1)
        if not eligible:
            entry.askers.pop(face, None)
            self.sweep()
            return "passed", [(face, wrapped(interest.whole, token, p.NO_ROUTE))]
        chosen = self.best_route(entry, eligible)
        self.pending[key] = entry
        entry.askers[face] = Asker(interest.nonce, interest.whole, min(self.now + interest.lifetime, LAST_MOMENT), token)
        if chosen is None:
            return "passed", []
        entry.asked[chosen] = Asked(interest.nonce, self.now)
        whole = bytearray(interest.whole)
        if limit is not None:
            whole[interest.hop_limit_at] = limit - 1
        return "passed", [(chosen, bytes(whole))]

    def best_route(self, entry, eligible):
        """Returns the next hop that best-route chooses, or None if an Interest was sent for this PIT entry less than 10
        milliseconds ago."""
        if any(self.now - one.moment < 10 for one in entry.asked.values()):
            return None
        new = [hop for _, hop in eligible if hop not in entry.asked]
        if new:
            return new[0]
        return min((entry.asked[hop].moment, cost, hop) for cost, hop in eligible)[2]

    # Data and Nacks.

    def data(self, face, data):
        rule = next((rule for rule in self.rules if rule.kind == "data" and g.begins(data.name, rule.prefix)), None)
        if rule is None:
            return "no-rule data", []
        reason = rule.reason(self.keys, data.signature)
        if reason is not None:
            return f"denied data {reason} {rule.identity}", []
        wanted = {key: entry for key, entry in self.pending.items() if g.answers(data, key[0], key[1])}
        last = {}
        for key, entry in wanted.items():
            del self.pending[key]
            for asker, one in entry.askers.items():
                rank = (one.deadline, g.order(key[0]), key[1], key[2])
                if asker not in last or last[asker][0] < rank:
                    last[asker] = (rank, one.token)
        if wanted:
            self.cached = [pair for pair in self.cached if g.full_name(pair[0]) != g.full_name(data)]
            self.cached.append((data, self.now))
        filled = [want for want in self.wants if g.answers(data, *want)]
        for want in filled:
            del self.wants[want]
            self.objects[g.full_name(data)] = data
        sends = [(asker, wrapped(data.whole, token)) for asker, (_, token) in sorted(last.items()) if asker != face]
        return f"data {rule.identity}", sends

    def nack(self, face, interest, reason):
        key = (interest.name, interest.can_be_prefix, interest.must_be_fresh)
        entry = self.pending.get(key)
        asked = None if entry is None else entry.asked.get(face)
        if asked is None or asked.nonce != interest.nonce:
            return "dropped NoPending", []
        asked.reason = reason
        reasons = [one.reason for one in entry.asked.values()]
        if None in reasons:
            return "passed", []
        del self.pending[key]
        back = min(reasons)
        return "passed", [(asker, wrapped(one.whole, one.token, back)) for asker, one in sorted(entry.askers.items())]

    # Commands.

    def command(self, face, interest, token):
        content_of = status_content if g.begins(interest.name, NFD) else repository_content

        def reply(*content):
            return [(face, wrapped(made(interest.name, content_of(*content)), token))]

        named = interest.name[:-1] if g.kind_of(interest.name[-1]) == g.PARAMETERS_DIGEST else interest.name
        rule = next((rule for rule in self.rules if rule.kind == "interest" and g.begins(named, rule.prefix)), None)
        if rule is None:
            return "no-rule interest", reply(403, "no rule")
        signature = interest.signature
        if signature is None:
            reason = "NotSigned"
        elif signature.covered is None or signature.time is None:
            reason = "Shape"
        else:
            reason = rule.reason(self.keys, signature) or self.replay(signature)
        if reason is not None:
            return f"denied interest {reason} {rule.identity}", reply(403, f"{reason} by {rule.identity}")
        signer = self.signer(signature)
        time, number = self.last.get(signer, (None, None))
        self.last[signer] = (signature.time, number if signature.number is None else signature.number)
        if content_of is repository_content:
            status, text, count, fetch = self.repository(named, interest.nonce)
            return f"allowed {status} {rule.identity}", reply(status, text, count) + fetch
        self.version += 1
        status, text, body = self.apply(face, named)
        return f"allowed {status} {rule.identity}", reply(status, text, body)

    def signer(self, signature):
        """Returns the name of the key of an HMAC, or None for a SHA-256 digest."""
        return None if signature.kind == 0 else signature.key

    def replay(self, signature):
        """Returns `Replay` if a command with this signature is not fresh, otherwise None."""
        time, number = self.last.get(self.signer(signature), (None, None))
        late = abs(signature.time - self.now) > CLOCKS_DIFFER
        old = time is not None and signature.time <= time
        again = None not in (number, signature.number) and signature.number <= number
        return "Replay" if late or old or again else None

    def apply(self, asker, named):
        """Applies an allowed command to the node. Returns the status and the text of the reply, and the encoded
        ControlParameters of the reply, which are empty if the status is not 200."""
        bad = (400, "bad parameters", b"")
        if len(named) < 4:
            return bad
        if named[:4] not in (p.name("/localhost/nfd/fib/add-nexthop"), p.name("/localhost/nfd/fib/remove-nexthop")):
            raise Beyond("another command")
        adds = named[3] == p.name("/add-nexthop")[0]
        if len(named) != 5:
            return bad
        try:
            fields = first_fields(named[4], 104)
            uses = (7, 105, 106) if adds else (7, 105)
            if 7 not in fields or any(kind in fields and kind not in uses for kind in (105, 106, 107, 108, 109, 111, 132)):
                return bad
            name = g.components(fields[7])
            hop, cost = (g.integer(fields[kind]) if kind in fields else 0 for kind in (105, 106))
        except g.Fault:
            return bad
        hop = hop or asker
        if not adds:
            self.hops.get(name, {}).pop(hop, None)
            self.hops = {of: hops for of, hops in self.hops.items() if hops}
            return 200, "OK", p.tlv(104, p.tlv(7, *name), p.integer(105, hop))
        if len(name) > 32:
            return 414, "prefix too long", b""
        if hop not in self.up:
            return 410, "face not open", b""
        if name not in self.hops and len(self.hops) == 4096:
            return 503, "table full", b""
        self.hops.setdefault(name, {})[hop] = cost
        return 200, "OK", p.tlv(104, p.tlv(7, *name), p.integer(105, hop), p.integer(106, cost))

    def repository(self, named, nonce):
        """Applies an allowed command to the repository. Returns the status, the text and the count of the reply, and a
        list. The list has one pair, the face and the octets of the Interest that the node sends for the Data, or is
        empty."""
        bad = (400, "bad parameters", 0, [])
        if len(named) != 3:
            return bad
        try:
            fields = first_fields(named[2], 201)
            name = g.components(fields[7])
            flag = 33 in fields and g.octets_of(0)(fields[33]) == b""
            lifetime = g.integer(fields[12]) if 12 in fields else 4000
        except (g.Fault, KeyError):
            return bad
        want, verb = (name, flag), REPOSITORY[named[:2]]
        found = [full for full, data in self.objects.items() if g.answers(data, *want)]
        if verb == "delete":
            gone = self.wants.pop(want, None)
            for full in found:
                del self.objects[full]
            return (200, "OK", len(found), []) if found or gone is not None else (404, "not found", 0, [])
        if found:
            return 200, "OK", len(found), []
        if verb == "check":
            return (100, "pending", 0, []) if want in self.wants else (404, "not found", 0, [])
        if want not in self.wants and (len(self.wants) == 64 or len(self.wants) + len(self.objects) == 65_536):
            return 503, "repository full", 0, []
        self.wants[want] = min(self.now + lifetime, LAST_MOMENT)
        eligible = self.eligible(name, None, False)
        if not eligible or not name or any(g.kind_of(part) == g.PARAMETERS_DIGEST for part in name):
            return 100, "pending", 0, []
        asks = p.interest(name, int.from_bytes(nonce, "big"), flag, False, lifetime)
        return 100, "pending", 0, [(eligible[0][1], asks)]

    # The list of routes.

    def segment_asked(self, interest):
        """Returns a pair for an Interest that asks for a segment of the list of routes: the version of the list, and
        the number of the segment. The version is None if the Interest's name has no version: then the Interest asks for
        the current version. Returns None instead of the pair if the Interest does not ask for a segment of this list.
        Raises Beyond if the Interest's name is under the name of the list of strategies."""
        name, of_routes = interest.name, p.name("/localhost/nfd/fib/list")
        if g.begins(name, p.name("/localhost/nfd/strategy-choice/list")):
            raise Beyond("the list of strategies")
        if not g.begins(name, of_routes) or len(name) > 6:
            return None
        numbers = []
        for part, kind in zip(name[4:], (54, 50)):
            n = int.from_bytes(g.element(part).value, "big")
            if n > LAST_MOMENT or part != p.integer(kind, n):
                return None
            numbers.append(n)
        if len(numbers) == 2:
            return numbers
        if not interest.can_be_prefix:
            return None
        return (numbers[0] if numbers else None), 0

    def segment(self, version, k):
        """Returns the octets of the Data with segment `k` of the list of routes. Returns None if the list has no such
        segment, or if `version` is neither None nor the current version of the list."""
        if version not in (None, self.version):
            return None
        text = b""
        for name in sorted(self.hops, key=g.order):
            hops = sorted((cost, hop) for hop, cost in self.hops[name].items())
            text += p.tlv(128, p.tlv(7, *name), *(p.tlv(129, p.integer(105, hop), p.integer(106, cost)) for cost, hop in hops))
        last = max(len(text) - 1, 0) // SEGMENT
        if k > last:
            return None
        name = p.name("/localhost/nfd/fib/list") + (p.integer(54, self.version), p.integer(50, k))
        meta = p.tlv(20, p.integer(25, 1000), p.tlv(26, p.integer(50, last)))
        return made(name, text[k * SEGMENT : (k + 1) * SEGMENT], meta)
