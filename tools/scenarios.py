"""Node scripts of 10 to 175 events, for `refused`. Each script except the random ones also has the verdicts that the
documents require."""

import random

import packets as p

OPERATOR = p.Key("/ops/KEY/1", b"the operator's key")
SECOND = p.Key("/ops/KEY/2", b"another key")
SENSOR = p.Key("/sensors/roof/KEY/7", b"a sensor's key")
RULES = (
    p.rule("ops", "interest", "/localhost/nfd", OPERATOR)
    + p.rule("repo-ops", "interest", "/repo", SECOND)
    + p.rule("sensors", "data", "/sensors", hierarchical=True)
    + p.rule("any-data", "data")
)
KEYS = (OPERATOR, SECOND, SENSOR)
START = 1_000_000
MULTICAST = p.name(p.STRATEGIES + "multicast")
A, AB, ABC, B = p.name("/A"), p.name("/A/B"), p.name("/A/B/C"), p.name("/B")
FIRST_TOKEN, SECOND_TOKEN = bytes.fromhex("a1b2"), b"\x7f"


class Scenario:
    """A node script. `cache` is the number of Data that the node's cache can hold.

    `lines` has the events. `expected` has, for each event, the verdict and the faces to which a packet is sent, in
    order. In a random script, `expected` has None for each event.

    `loses` has the ways in which the cache may lose Data. Each way is a list of lines. If these lines are inserted
    after an event, they remove Data from the cache, and change the later answers to the script in no other way. `apart`
    means that no answer depends on what the cache did when it answered earlier Interests, and that each Data that may
    be cached arrives directly after the Interest that it answers.

    `now` is the moment of the next event, and `time` is the signature time of the last command.
    """

    def __init__(self, title, cache=1):
        self.title, self.cache = title, cache
        self.lines, self.expected, self.loses, self.apart = [], [], [], False
        self.now, self.time, self.nonces = START, START, 0x01020304

    def nonce(self):
        """Returns a new Nonce."""
        self.nonces += 1
        return self.nonces

    def put(self, line, verdict, *faces):
        """Adds an event. `faces` are the faces to which a packet is sent."""
        self.lines.append(line)
        self.expected.append((verdict, list(faces)))

    def up(self, *faces, scope="far"):
        """Opens faces. Face 1 is local, and all other faces have the scope `scope`."""
        for face in faces:
            self.put(f"up {face} {'local' if face == 1 else scope} {self.now}", "passed")

    def down(self, face):
        self.put(f"down {face} {self.now}", "passed")

    def tick(self, now):
        self.now = now
        self.put(f"tick {now}", "passed")

    def comes(self, face, packet, verdict="passed", *faces):
        """Adds a packet that arrives on `face`."""
        self.put(f"in {face} {self.now} {packet.hex()}", verdict, *faces)

    def ask(self, face, of, *faces, **fields):
        """Adds an Interest that arrives on `face`, and returns it. `faces` are the faces to which the Interest is
        forwarded. If the Interest is answered or returned in a Nack, `faces` is `face` itself."""
        packet = p.interest(of, self.nonce(), **fields)
        self.comes(face, packet, "passed", *faces)
        return packet

    def answer(self, face, of, *faces, **fields):
        """Adds a Data, and returns it. The Data arrives on `face`, and the rule any-data allows it. `faces` are the
        faces to which the Data is sent."""
        packet = p.data(of, **fields)
        self.comes(face, packet, "data any-data", *faces)
        return packet

    def order(self, verb, of, face=None, status=200, **fields):
        """Adds an event with a command to the node, and returns the command. The command arrives on face 1 and is
        allowed. `status` is the status of the reply."""
        self.time += 1
        packet = p.command(p.node_name(verb, of, face, **fields), self.nonce(), OPERATOR, self.time)
        self.comes(1, packet, f"allowed {status} ops", 1)
        return packet

    def route(self, of, *faces):
        """For each of the faces, adds a command that adds a next hop through this face."""
        for face in faces:
            self.order("fib/add-nexthop", of, face)

    def store(self, verb, of, status, *faces, **fields):
        """Adds an event with a command to the repository, and returns the command. The command arrives on face 1 and is
        allowed. `faces` are the faces to which the node sends its own Interest for the Data."""
        self.time += 1
        packet = p.command(p.repository_name(verb, of, **fields), self.nonce(), SECOND, self.time)
        self.comes(1, packet, f"allowed {status} repo-ops", 1, *faces)
        return packet

    def list(self, which="fib", version=None, segment=0, verdict="passed"):
        """Adds an Interest, which arrives on face 1, for the list of routes (`which` is `fib`) or
        of strategies (`strategy`). The Interest asks for this segment of this version. Without a
        version it asks for the first segment of the current version."""
        of = p.name(f"/localhost/nfd/{which}{'' if which == 'fib' else '-choice'}/list")
        if version is not None:
            of += (p.integer(p.VERSION, version), p.integer(p.SEGMENT, segment))
        packet = p.interest(of, self.nonce(), can_be_prefix=version is None)
        self.comes(1, packet, verdict, *([1] if verdict == "passed" else []))

    def lists(self):
        self.list()
        self.list("strategy")

    def rules(self, rules=RULES, keys=KEYS):
        """Adds an event that replaces the rules and the keys of the node."""
        files = rules.encode().hex() or "-", "".join(key.line() for key in keys).encode().hex() or "-"
        self.put(f"rules {self.now} {files[0]} {files[1]}", "passed")

    def may_lose_its_data(self):
        """Adds to `loses` lines of a script after which a cache for one Data has lost this Data: another Data takes its
        place. These lines do not change the version of the lists. The lines need the faces 60 and 61, and a route
        through face 60. So this method first opens these faces and adds the route. Face 1 must be open."""
        self.up(60, 61)
        other = p.name("/other")
        self.route(other, 60)
        self.loses.append([f"in 61 0 {p.interest(other, 9).hex()}", f"in 60 0 {p.data(other).hex()}"])


def route_command_and_list():
    s = Scenario("route command and list")
    s.up(1)
    refused = s.order("fib/add-nexthop", A, 7, 410)
    s.comes(1, refused, "denied interest Replay ops", 1)
    s.up(7)
    s.route(A, 7)
    s.list()
    s.list("fib", 2)
    s.list("fib", 2, 1, "dropped NoSegment")
    s.ask(1, AB, 7)
    s.down(7)
    s.list()
    s.list("fib", 2, 0, "dropped NoSegment")
    s.ask(1, AB, 1)
    return s


def strategy_and_cache():
    s = Scenario("strategy and cache")
    s.up(1, 2, 3)
    s.may_lose_its_data()
    s.order("strategy-choice/set", A, strategy=MULTICAST)
    s.list("strategy")
    s.order("strategy-choice/unset", (), status=400)
    s.order("strategy-choice/set", A, status=404, strategy=p.name("/x"))
    s.route((), 2, 3)
    s.ask(1, A, 2, 3)
    s.answer(3, A, 1)
    s.ask(1, A, 1)
    s.lists()
    s.order("cs/erase", A)
    s.ask(1, A, 2, 3)
    s.order("strategy-choice/unset", A)
    s.ask(1, AB, 2)
    s.lists()
    return s


def commands_and_their_times():
    s = Scenario("commands and their times")
    s.up(1, 2)
    s.put(f"up 3 local {s.now}", "passed")
    first = s.order("fib/add-nexthop", A, 2)
    s.comes(3, first, "denied interest Replay ops", 3)
    s.comes(2, first, "dropped Scope")

    def at(time, verdict, key=OPERATOR, number=None, wrong=False):
        packet = p.command(p.node_name("fib/add-nexthop", B, 3, time % 1000), s.nonce(), key, time, number, wrong)
        s.comes(1, packet, verdict, 1)

    at(s.time, "denied interest Replay ops")
    at(START + 50, "denied interest Tag ops", wrong=True)
    at(START + 50, "denied interest KeyLocator ops", SECOND)
    at(START + 2, "allowed 200 ops", number=7)
    at(START + 3, "denied interest Replay ops", number=7)
    at(START + 4, "allowed 200 ops", number=8)
    at(START + 120_001, "denied interest Replay ops")
    at(START + 120_000, "allowed 200 ops")
    at(START + 119_999, "denied interest Replay ops")
    s.lists()
    return s


def deadlines():
    """Tests deadlines of pending Interests and of a pending insert, each with two events. The moment of the first event
    is the deadline or later. The moment of the second event is before the deadline, and the answer to this event shows
    that the Interest or insert has expired. Without the first event the Interest or insert would not have expired."""
    s = Scenario("deadlines")
    s.up(1, 2, 3)
    s.route(A, 2)
    s.now = 1_001_000
    s.ask(1, A, 2, lifetime=100)
    s.now = 1_001_100
    s.ask(3, B, 3)
    s.now = 1_001_099
    s.answer(2, A)
    s.ask(1, AB, 2, lifetime=100, must_be_fresh=True)
    s.now = 1_001_200
    s.order("fib/add-nexthop", ABC, 3)
    s.now = 1_001_150
    s.answer(2, AB)
    s.ask(3, AB, 2, lifetime=100, must_be_fresh=True)
    s.now = 1_001_300
    s.rules()
    s.now = 1_001_250
    s.answer(2, AB)
    s.ask(3, AB, 2, lifetime=100, must_be_fresh=True)
    s.now = 1_001_400
    s.list()
    s.now = 1_001_399
    s.answer(2, AB)
    s.store("insert", ABC, 100, 3, lifetime=100)
    s.now = 1_001_500
    s.store("check", B, 404)
    s.now = 1_001_450
    s.answer(3, ABC)
    s.store("check", ABC, 404)
    s.lists()
    return s


def loops_and_retries():
    s = Scenario("loops and retries")
    s.up(1, 2)
    s.may_lose_its_data()
    s.route(A, 2)
    s.now = 1_001_000
    packet = s.ask(1, A, 2)
    s.comes(2, packet, "dropped Loop", 2)
    s.now += 9
    s.comes(1, packet)
    s.now += 1
    s.comes(1, packet, "passed", 2)
    s.answer(2, A, 1)
    s.lists()
    return s


def nacks():
    s = Scenario("nacks")
    s.up(1, 2, 3, 4)
    s.order("strategy-choice/set", A, strategy=MULTICAST)
    s.route(A, 2, 4)
    s.now = 1_001_000
    packet = s.ask(1, A, 2, 4)
    s.now += 10
    s.comes(1, packet, "passed", 2, 4)
    s.comes(2, p.nack(p.NO_ROUTE, packet))
    s.ask(3, A)
    s.comes(4, p.nack(p.DUPLICATE, packet), "passed", 1, 3)
    s.comes(2, p.nack(p.NO_ROUTE, packet), "dropped NoPending")
    s.answer(2, A)
    s.lists()
    return s


def from_insert_to_delete(cache):
    s = Scenario("from insert to delete", cache)
    s.up(1, 2)
    s.route((), 2)
    s.store("insert", A, 100, 2)
    s.answer(2, A)
    s.store("insert", A, 200)
    s.ask(1, A, 1)
    s.store("insert", AB, 100, 2, can_be_prefix=True)
    s.answer(2, ABC)
    s.store("check", A, 200, can_be_prefix=True)
    s.store("delete", A, 200, can_be_prefix=True)
    s.store("check", A, 404)
    s.ask(1, A, 2)
    s.lists()
    return s


def an_expired_want(cache):
    s = Scenario("an expired want", cache)
    s.up(1, 2)
    s.route((), 2)
    s.now = 1_001_000
    s.store("insert", A, 100, 2, lifetime=100)
    s.store("insert", B, 100, 2, lifetime=200)
    s.store("insert", AB, 100, 2, lifetime=300)
    s.now = 1_001_100
    s.answer(2, A)
    s.now += 1
    s.store("check", A, 404)
    s.now = 1_001_200
    s.ask(1, ABC, 2, must_be_fresh=True)
    s.now -= 1
    s.answer(2, B)
    s.store("check", B, 404)
    s.store("check", AB, 100)
    s.store("delete", AB, 200)
    s.answer(2, AB)
    s.store("check", AB, 404)
    return s


def the_cache_fills_no_want():
    s = Scenario("the cache fills no want")
    s.up(1, 2)
    s.may_lose_its_data()
    s.route((), 2)
    s.now = 1_001_150
    s.ask(1, B, 2)
    s.answer(2, B, 1)
    s.store("insert", B, 100, 2)
    s.store("check", B, 100)
    s.ask(1, B, 1)
    s.answer(2, B)
    s.store("check", B, 200)
    s.lists()
    return s


def registered_routes():
    s = Scenario("registered routes")
    s.up(1, 2, 3, 4)
    register = "rib/register"
    s.order(register, A, 2, cost=5)
    again = s.order(register, AB, 3, flags=0, expires=1000)
    s.order(register, (), 4, cost=9, origin=65, expires=3000)
    s.order(register, A, 4, cost=7, origin=128, expires=2000)
    s.order(register, A, 9, 410)
    s.list()
    s.now += 500
    s.comes(1, again, "denied interest Replay ops", 1)
    s.now = START + 999
    s.ask(1, AB, 3)
    s.ask(2, ABC, 3)
    s.now = START + 1000
    s.ask(1, ABC + B, 2)
    s.now = START + 999
    s.list()
    s.now = START + 2000
    s.ask(3, B, 4)
    s.order(register, A, 4, cost=6, origin=128, flags=2, expires=500)
    s.list()
    s.now = START + 2500
    s.list("strategy")
    s.now = START + 2499
    s.list()
    s.order("rib/unregister", A, 2)
    s.ask(1, A, 4)
    s.now = START + 3000
    s.ask(1, ABC, 1)
    s.order(register, A, 3)
    s.route(A, 2)
    s.list()
    s.order("fib/remove-nexthop", A, 2)
    s.down(3)
    s.lists()
    return s


def new_rules():
    s = Scenario("new rules")
    s.up(1, 2)
    s.may_lose_its_data()
    order = s.order("fib/add-nexthop", A, 2)
    s.ask(1, A, 2)
    s.rules("", ())
    s.comes(2, p.data(A), "no-rule data")
    s.rules()
    s.answer(2, A, 1)
    s.comes(1, order, "denied interest Replay ops", 1)
    s.rules(keys=(SECOND,))
    s.time += 1
    later = p.command(p.node_name("fib/add-nexthop", AB, 1), s.nonce(), OPERATOR, s.time)
    s.comes(1, later, "denied interest KeyUnknown ops", 1)
    s.ask(1, A, 1)
    s.now += 5000
    s.rules("", ())
    s.comes(1, later, "no-rule interest", 1)
    s.now -= 3000
    s.rules(p.rule("local", "interest", "/localhost", OPERATOR) + RULES)
    s.comes(1, later, "allowed 200 local", 1)
    s.ask(2, AB, 1)
    s.lists()
    return s


def tokens():
    s = Scenario("PIT tokens")
    s.up(1, 2, 3, 4)
    s.may_lose_its_data()
    s.route(A, 2)
    longest = bytes(range(32))

    def ask(face, of, token, verdict, *faces, **fields):
        packet = p.interest(of, s.nonce(), **fields)
        s.comes(face, packet if token is None else p.with_token(packet, token), verdict, *faces)
        return packet

    s.lists()
    s.comes(1, p.with_token(p.interest(B, s.nonce()), FIRST_TOKEN), "passed", 1)
    first = ask(1, A, FIRST_TOKEN, "passed", 2)
    ask(3, A, None, "passed")
    ask(4, A, longest, "passed", 2, can_be_prefix=True)
    s.comes(2, p.with_token(first, SECOND_TOKEN), "dropped Loop", 2)
    s.answer(2, A, 1, 3, 4)
    ask(3, A, SECOND_TOKEN, "passed", 3)
    refused = ask(1, AB, FIRST_TOKEN, "passed", 2)
    ask(4, AB, longest, "passed")
    s.comes(2, p.nack(p.NO_ROUTE, refused, p.tlv(p.PIT_TOKEN, SECOND_TOKEN)), "passed", 1, 4)
    s.time += 1
    order = p.command(p.node_name("fib/add-nexthop", B, 3), s.nonce(), OPERATOR, s.time)
    s.comes(1, p.with_token(order, SECOND_TOKEN), "allowed 200 ops", 1)
    s.comes(1, p.with_token(order, FIRST_TOKEN), "denied interest Replay ops", 1)
    s.time += 1
    insert = p.command(p.repository_name("insert", AB), s.nonce(), SECOND, s.time)
    s.comes(1, p.with_token(insert, longest), "allowed 100 repo-ops", 1, 2)
    s.comes(2, p.with_token(p.data(AB), FIRST_TOKEN), "data any-data")
    ask(4, AB, SECOND_TOKEN, "passed", 4)
    listed = p.interest(p.name("/localhost/nfd/fib/list"), s.nonce(), can_be_prefix=True)
    s.comes(1, p.with_token(listed, longest), "passed", 1)
    s.comes(1, p.with_token(p.interest(B, s.nonce()), b""), "dropped Malformed LpField")
    return s


def many_faces():
    """Tests a Data and a Nack that are sent to many faces, with and without PIT tokens. Of the Interests with the same
    name and the same values of MustBeFresh and CanBePrefix, only the first is forwarded."""
    s = Scenario("many faces wait")
    s.up(1)
    faces = list(range(2, 40))
    s.up(*faces)
    s.route(A, 1)
    for which in (AB, ABC):
        packet = p.interest(which, 7)
        s.comes(2, p.with_token(packet, FIRST_TOKEN), "passed", 1)
        for face in faces[1:]:
            fields = {"must_be_fresh": face % 3 == 0, "can_be_prefix": face % 4 == 0}
            other = p.interest(which, 7 + face, **fields)
            goes_on = any(fields.values()) and face in (3, 4, 12)
            s.comes(face, p.with_token(other, bytes((face,)) * 8) if face % 2 else other, "passed", *([1] if goes_on else []))
        if which == AB:
            s.answer(1, which, *faces)
        else:
            s.comes(1, p.nack(p.NO_ROUTE, packet), "passed", *[face for face in faces if face == 2 or (face % 3 and face % 4)])
    return s


def tables_grow():
    """Makes many routes, strategies, pending Interests, pending inserts and stored Data, and a list of two segments."""
    s = Scenario("tables grow")
    s.up(1, 2, 3)
    names = [p.words(b"%d" % (i % 5), b"x" * 60, b"%d" % i) for i in range(60)]
    for i, of in enumerate(names):
        if i % 2:
            s.order("rib/register", of, 2 + i % 4 // 2, cost=i, expires=1000 + i)
        else:
            s.route(of, 2)
    for of in names[:20]:
        s.order("strategy-choice/set", of, strategy=MULTICAST)
    for i, of in enumerate(names[:40]):
        s.ask(1, of, 2 + i % 2 * (i % 4 // 2), must_be_fresh=True)
    for i, of in enumerate(names[:20]):
        s.store("insert", of + (p.tlv(8, b"y"),), 100, 2 + i % 2 * (i % 4 // 2))
    for i, of in enumerate(names[:20]):
        s.answer(2 + i % 2 * (i % 4 // 2), of + (p.tlv(8, b"y"),))
    version = len(names) + 20
    for segment in range(2):
        s.list("fib", version, segment)
    s.list("strategy", version)
    s.store("check", (), 200, can_be_prefix=True)
    s.now += 1030
    s.list()
    s.store("delete", (), 200, can_be_prefix=True)
    for i, of in enumerate(names[:6]):
        s.answer(2 + i % 2 * (i % 4 // 2), of, 1)
    return s


def a_full_cache():
    """Fills a cache for two Data, so that later Data evict earlier ones."""
    s = Scenario("a full cache", 2)
    s.up(1, 2, 3)
    s.route(A, 2)
    names = [p.words(b"A", b"%d" % i) for i in range(4)]
    for of in names:
        s.ask(1, of, 2)
        s.answer(2, of, 1)
    s.ask(3, names[3], 3)
    s.ask(3, names[2], 3)
    s.ask(3, names[1], 2)
    s.ask(3, names[0], 2)
    s.apart = True
    for erased in names:
        time = s.time + 1
        s.loses.append([f"in 1 0 {p.command(p.node_name('cs/erase', erased), 9, OPERATOR, time).hex()}"])
    s.loses.append([f"in 1 0 {p.command(p.node_name('cs/erase', A), 9, OPERATOR, s.time + 1).hex()}"])
    return s


def sensors():
    """Tests Data on which a rule with a hierarchical checker decides."""
    s = Scenario("a hierarchical checker")
    s.up(1, 2)
    s.route(p.name("/sensors"), 2)
    of = p.name("/sensors/roof/1")
    s.ask(1, of, 2, must_be_fresh=True)
    s.comes(2, p.data(of, key=SENSOR, wrong=True), "denied data Tag sensors")
    s.comes(2, p.data(of, key=OPERATOR), "denied data KeyLocator sensors")
    s.comes(2, p.data(of), "denied data SigType sensors")
    s.comes(2, p.data(of, key=SENSOR), "data sensors", 1)
    s.lists()
    return s


def wrong_packets():
    s = Scenario("wrong packets")
    s.up(1, 2)
    packet = p.interest(A, 5)
    s.comes(3, packet, "dropped NoFace")
    s.put(f"in 1 {s.now} -", "dropped Malformed Tlv Truncated")
    s.comes(1, packet[:-1], "dropped Malformed Tlv Truncated")
    s.comes(1, bytes(9000), "dropped Malformed Tlv TypeZero")
    s.comes(1, p.tlv(100), "dropped Idle")
    s.comes(1, p.interest(A, 5, hop_limit=0), "dropped HopLimit")
    s.comes(2, p.interest(p.name("/localhost/x"), 5), "dropped Scope")
    s.comes(2, p.data(p.name("/localhost/x")), "dropped Scope")
    s.comes(1, packet, "passed", 1)
    return s


def all_of_them():
    """Yields all scripts that are not random."""
    yield route_command_and_list()
    yield strategy_and_cache()
    yield commands_and_their_times()
    yield deadlines()
    yield loops_and_retries()
    yield nacks()
    for cache in (1, 1000):
        yield from_insert_to_delete(cache)
        yield an_expired_want(cache)
    yield the_cache_fills_no_want()
    yield registered_routes()
    yield new_rules()
    yield tokens()
    yield many_faces()
    yield tables_grow()
    yield a_full_cache()
    yield sensors()
    yield wrong_packets()


def random_script(seed):
    """Returns a script of 40 events. The script opens three faces, adds a route, and continues with random events on a
    few names. Each Interest that is not a command and does not ask for a list has MustBeFresh, and no Data has a
    FreshnessPeriod. So the cache answers no Interest."""
    s, draw = Scenario(f"random script {seed}"), random.Random(seed)
    names = (A, AB, ABC, B, B + A, p.name("/sensors/roof"))
    sent = [p.interest(A, 1, must_be_fresh=True)]

    def put(line):
        s.lines.append(line)
        s.expected.append(None)

    def comes(face, packet):
        if draw.random() < 0.3:
            packet = p.with_token(packet, draw.randbytes(draw.choice((1, 4, 32))))
        put(f"in {face} {moment} {packet.hex()}")

    def ask():
        lifetime, hop_limit = draw.choice((None, 50, 200, 1000)), draw.choice((None, None, 1, 2))
        sent.append(p.interest(draw.choice(names), s.nonce(), draw.random() < 0.4, True, lifetime, hop_limit))
        comes(draw.randrange(1, 5), sent[-1])

    def order():
        verb = draw.choice(("fib/add-nexthop", "fib/add-nexthop", "fib/remove-nexthop", "rib/register", "rib/register", "rib/unregister"))
        fields = {"face": draw.randrange(1, 5)}
        if verb == "fib/add-nexthop":
            fields["cost"] = draw.randrange(3)
        if verb.startswith("rib"):
            fields["origin"] = draw.choice((None, 65))
        if verb == "rib/register":
            fields.update(flags=draw.randrange(4), expires=draw.choice((None, 50, 200)))
        signed(OPERATOR, p.node_name(verb, draw.choice((*names, ())), **fields))

    def signed(key, of):
        s.time += draw.choice((0, 1, 1, 1, 1))
        comes(1, p.command(of, s.nonce(), key, s.time))

    def choose():
        strategy = draw.choice((MULTICAST, MULTICAST, None))
        verb = "strategy-choice/" + ("unset" if strategy is None else "set")
        signed(OPERATOR, p.node_name(verb, draw.choice(names), strategy=strategy))

    def store():
        verb = draw.choice(("insert", "insert", "insert", "delete", "check"))
        signed(SECOND, p.repository_name(verb, draw.choice(names), draw.random() < 0.4, draw.choice((None, 50, 200))))

    def show():
        of = p.name(draw.choice(("/localhost/nfd/fib/list", "/localhost/nfd/strategy-choice/list")))
        comes(1, p.interest(of, s.nonce(), can_be_prefix=True))

    def refuse():
        packet = p.nack(draw.choice((50, 100, 150)), draw.choice(sent[-4:]))
        put(f"in {draw.randrange(2, 5)} {moment} {packet.hex()}")

    def rules():
        put(f"rules {moment} {draw.choice((RULES, '')).encode().hex() or '-'} {''.join(key.line() for key in KEYS).encode().hex()}")

    makers = (
        (ask, 12), (lambda: comes(draw.randrange(1, 5), draw.choice(sent[-4:])), 4), (lambda: comes(draw.randrange(1, 5), p.data(draw.choice(names))), 10),
        (refuse, 4), (order, 8), (choose, 3), (store, 8), (show, 3), (rules, 0.3), (lambda: put(f"tick {moment}"), 2),
        (lambda: put(f"up {draw.randrange(2, 5)} far {moment}"), 2), (lambda: put(f"down {draw.randrange(2, 5)} {moment}"), 1),
    )
    s.up(1, 2, 3)
    s.route(A, 2)
    s.expected = [None] * len(s.lines)
    while len(s.lines) < 40:
        s.now += draw.choice((0, 5, 20, 60))
        moment = s.now - draw.choice((0, 0, 0, 30, 100))
        draw.choices([maker for maker, _ in makers], [weight for _, weight in makers])[0]()
    return s
