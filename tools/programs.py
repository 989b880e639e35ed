"""Starts the programs under test, writes scripts to nodes, checks the verdicts, and stops the programs.

Most tools of this folder share this module. The last line that such a tool prints on standard output says how the tool
ended: `passed` and what was done, or `skipped` and why this machine cannot run the tool. `check` reads this line.
"""

import hashlib
import os
import re
import select
import shlex
import signal
import socket
import subprocess
import sys
import threading
import time

# The exit status of a tool that this machine cannot run. It differs from 2, the status for a wrong command line.
SKIPPED = 77

# The number of seconds after which a tool no longer waits for an answer. It is long, since the machine may be busy.
PATIENCE = 120

# A node gets this number of turns if it must not end by itself.
ENDLESS = 1 << 60

# The error that the checks allow for a measured size of resident memory, in KiB. Each processor counts the pages of a
# process separately, and adds its count to the total in batches of 32 or more pages. With batches of 32 pages of 4 KiB,
# the total on four processors may be wrong by 4 x 32 x 4 KiB, which is 512 KiB.
COUNTING_KIB = 512

# The C library keeps much of the memory that a program frees. With these environment variables it returns freed
# memory to the system at once where it can, so that the resident memory is close to the memory in use.
GIVES_BACK = {"MALLOC_TRIM_THRESHOLD_": "0", "MALLOC_TOP_PAD_": "0"}


class Wrong(Exception):
    """A check failed."""


class Skipped(Exception):
    """The tests cannot run on this machine."""


class PortTaken(Exception):
    """Another program has the port of a node."""


def words_of(text):
    """Splits a command line into its arguments, as a shell does."""
    return shlex.split(text)


def resident(process, field="VmRSS"):
    """Returns the resident memory of a process in KiB, or, with the field VmHWM, the maximum of this memory so far.
    Raises Wrong if the status of the process does not have the field. The field is missing if the process has exited,
    and nobody has waited for the process yet."""
    with open(f"/proc/{process.pid}/status", encoding="ascii") as status:
        for line in status:
            if line.startswith(field + ":"):
                return int(line.split()[1])
    raise Wrong(f"no {field} in the status of the process: has it ended?")


def processor_time(process):
    """Returns the processor time that the main thread of a process has used, in seconds."""
    with open(f"/proc/{process.pid}/schedstat", encoding="ascii") as times:
        return int(times.read().split()[0]) / 1e9


def fits(verdict, expected):
    """Returns whether a verdict is expected. `expected` is a sequence of texts, or None. A text that ends with a space
    matches each verdict that begins with the text. Any other text matches only the same verdict. None matches each
    verdict except `memory`."""
    if expected is None:
        return verdict != "memory"
    return any(verdict == one or (one[-1] == " " and verdict.startswith(one)) for one in expected)


class Reader(threading.Thread):
    """A thread that reads the output of a node, and checks each verdict when it arrives.

    `expected` has one entry for each event, in the form that `fits` takes. The caller must append the entry before it
    writes the event. `came` is the number of verdicts so far, and `counts` maps each verdict to the number of times
    that it arrived. The thread appends a message to `wrong` for each verdict that is not expected or has a wrong event
    number, up to 20 messages. If `keeps` is true, the thread appends each verdict to `kept`. `sum` is the SHA-256 of
    the output. At the verdicts 1, 1001, 2001 and so on, the thread appends to `marks` the SHA-256 of all output before
    this verdict. So a caller can find the first block of 1000 events in which the outputs of two programs differ.
    """

    keeps = False

    def __init__(self, stream, expected=()):
        super().__init__(daemon=True)
        self.stream, self.expected, self.came = stream, list(expected), 0
        self.counts, self.wrong, self.marks = {}, [], []
        self.sum, self.news = hashlib.sha256(), threading.Condition()
        self.done, self.waited = False, None
        self.kept = []
        self.start()

    def run(self):
        for raw in self.stream:
            if raw[:1] != b">":
                self.verdict(raw.decode("utf-8", "replace").rstrip("\n"))
            self.sum.update(raw)
        with self.news:
            self.done = True
            self.news.notify_all()

    def verdict(self, line):
        """Checks and counts the verdict in a line of the output."""
        number, _, verdict = line.partition(" ")
        if self.came % 1000 == 0:
            self.marks.append(self.sum.hexdigest())
        expected = self.expected[self.came] if self.came < len(self.expected) else ()
        self.came += 1
        if number != str(self.came) or not fits(verdict, expected):
            if len(self.wrong) < 20:
                self.wrong.append(f"event {self.came}: `{line}`, expected {expected}")
        if self.keeps:
            self.kept.append(verdict)
        self.counts[verdict] = self.counts.get(verdict, 0) + 1
        if self.waited is not None and self.came >= self.waited:
            with self.news:
                self.news.notify_all()

    def wait(self, count, seconds=PATIENCE):
        """Waits until `count` verdicts have arrived since the start of the thread. Raises Wrong if they do not arrive
        within `seconds`, or if the output ends before they arrive."""
        with self.news:
            self.waited = count
            if not self.news.wait_for(lambda: self.done or self.came >= count, seconds):
                raise Wrong(f"only {self.came} of {count} verdicts arrived within {seconds} s")
            self.waited = None
        if self.came < count:
            raise Wrong(f"the program ended after {self.came} of {count} verdicts")


class CountingReader(Reader):
    """A reader that counts the verdicts, and appends to `wrong` each line that has a wrong event number, or a verdict
    that is not in `allowed`. `allowed` has the form that `fits` takes. The reader leaves out a last line without an LF,
    which remains if the program is killed while it writes."""

    def __init__(self, stream, allowed=None):
        self.allowed = allowed
        super().__init__(whole_lines(stream))

    def verdict(self, line):
        number, _, verdict = line.partition(" ")
        self.came += 1
        if number != str(self.came) or not fits(verdict, self.allowed):
            self.wrong.append(line)
        self.counts[verdict] = self.counts.get(verdict, 0) + 1
        if self.waited is not None and self.came >= self.waited:
            with self.news:
                self.news.notify_all()


def whole_lines(stream):
    """Yields the lines of a stream that have an LF."""
    return (line for line in stream if line.endswith(b"\n"))


class ScriptNode:
    """A node that reads a script from a pipe. `command` must include the argument `script`."""

    def __init__(self, command, *options):
        self.process = subprocess.Popen(
            [*words_of(command), *options],
            stdin=subprocess.PIPE, stdout=subprocess.PIPE, stderr=subprocess.PIPE, bufsize=1 << 16,
            env={**os.environ, **GIVES_BACK},
        )
        self.reader = Reader(self.process.stdout)
        self.put_so_far = 0

    def put(self, line, expected=None):
        """Writes a line with an event to the node. `expected` has the expected verdicts, as `fits` takes them. Raises
        Wrong if the node has closed its input."""
        self.reader.expected.append(expected)
        self.put_so_far += 1
        try:
            self.process.stdin.write(line.encode() + b"\n")
        except BrokenPipeError:
            raise Wrong(f"the program stopped reading at event {self.put_so_far}: {self.message()}") from None

    def message(self):
        """Waits until the node closes standard error, and returns the text that it wrote there."""
        return self.process.stderr.read().decode("utf-8", "replace").strip()

    def settle(self):
        """Flushes the input, and waits until each event has a verdict."""
        self.process.stdin.flush()
        self.reader.wait(self.put_so_far)

    def end(self):
        """Closes the input, waits until the node exits, and returns the exit status. Sets `said` to the text that the
        node wrote to standard error."""
        self.process.stdin.close()
        self.reader.join(600)
        self.said = self.message()
        return self.process.wait(60)


def free_port():
    """Returns a UDP port of 127.0.0.1 that was free when this function was called."""
    with socket.socket(socket.AF_INET, socket.SOCK_DGRAM) as one:
        one.bind(("127.0.0.1", 0))
        return one.getsockname()[1]


def open_port():
    """Returns a socket at a free UDP port of 127.0.0.1, with a large buffer for the datagrams that arrive."""
    one = socket.socket(socket.AF_INET, socket.SOCK_DGRAM)
    one.setsockopt(socket.SOL_SOCKET, socket.SO_RCVBUF, 1 << 22)
    one.bind(("127.0.0.1", 0))
    one.setblocking(False)
    return one


def drained(one):
    """Receives all datagrams that have arrived at a socket that does not block, and returns their octets."""
    came = []
    while True:
        try:
            came.append(one.recv(65_536))
        except BlockingIOError:
            return came
        except ConnectionRefusedError:
            pass


class PortNode:
    """A node on a UDP port of 127.0.0.1. After the constructor returns, the faces of all peers are open.

    `peers` has the ports of the peers. Without `port`, the node gets a free port. If another program takes the port
    before the node has it, the constructor tries another port, or, if `port` is given, this port again, and raises
    PortTaken after `patience` seconds. `reads` makes the reader of the node's output. Without `reads`, it is a
    `CountingReader` with the allowed verdicts `allowed`. `said` has the lines on standard error.
    """

    def __init__(self, command, *options, peers=(), port=None, allowed=None, patience=PATIENCE, reads=None):
        self.reads = reads or (lambda output: CountingReader(output, allowed))
        end = time.monotonic() + patience
        while True:
            self.port = free_port() if port is None else port
            try:
                self.start(command, options, peers)
                return
            except PortTaken:
                if time.monotonic() > end:
                    raise
                time.sleep(0.2)

    def start(self, command, options, peers):
        turns = [] if "--turns" in options else ["--turns", str(ENDLESS)]
        words = ["udp", "--listen", str(self.port), *turns, *options, *map(str, peers)]
        self.process = subprocess.Popen(
            [*words_of(command), *words], stdin=subprocess.DEVNULL, stdout=subprocess.PIPE, stderr=subprocess.PIPE,
            env={**os.environ, **GIVES_BACK},
        )
        self.said = []
        self.listener = threading.Thread(target=self.listen, daemon=True)
        self.listener.start()
        self.reader = self.reads(self.process.stdout)
        try:
            self.reader.wait(len(peers))
        except Wrong as fault:
            self.kill()
            if any("cannot be bound" in line for line in self.said):
                raise PortTaken from None
            raise Wrong(f"the node does not start: {fault}; exit status {self.process.returncode}, message"
                        f" {self.said}") from None

    def listen(self):
        for line in self.process.stderr:
            self.said.append(line.decode("utf-8", "replace").rstrip("\n"))

    def kill(self):
        """Kills the node at once, as the command `kill -9` does, and waits until it has ended and its output is
        read."""
        if self.process.poll() is None:
            self.process.send_signal(signal.SIGKILL)
        self.process.wait()
        self.reader.join(PATIENCE)
        self.listener.join(PATIENCE)

    def check(self):
        """Raises Wrong if the node has ended, if a verdict was wrong, or if the node wrote to standard error."""
        if self.process.poll() is not None:
            raise Wrong(f"the node ended with status {self.process.returncode}, message {self.said}")
        self.check_output()

    def check_output(self):
        """Raises Wrong if a verdict was wrong, or if the node wrote to standard error."""
        if self.reader.wrong:
            raise Wrong(f"{len(self.reader.wrong)} wrong verdicts, the first is `{self.reader.wrong[0]}`")
        if self.said:
            raise Wrong(f"the node wrote to standard error: {self.said}")


def ask(one, port, packet, is_answer, seconds=PATIENCE, again=2):
    """Sends a packet from the socket `one` to a node at `port`, and waits for a datagram for which `is_answer` is true.
    Sends the packet once more each time `again` seconds have passed. Returns the octets of the answer. Discards other
    datagrams. Raises Wrong if no answer comes within `seconds`. `packet` may be a function that makes the packet that
    is sent each time."""
    end = time.monotonic() + seconds
    while time.monotonic() < end:
        one.sendto(packet() if callable(packet) else packet, ("127.0.0.1", port))
        pause = min(end, time.monotonic() + again)
        while time.monotonic() < pause:
            if select.select([one], [], [], max(0, pause - time.monotonic()))[0]:
                for came in drained(one):
                    if is_answer(came):
                        return came
    raise Wrong(f"no answer came within {seconds} s")


def stop(process):
    """Kills a process that this script started, if it is still running. `process` may be None."""
    if process is not None and process.poll() is None:
        process.kill()
        process.wait()


def write_files(folder, rules, keys):
    """Writes a rule file and a key file to a folder, and returns the options `--rules` and `--keys` with their paths.
    `rules` is the text of the rule file, and `keys` has the keys."""
    paths = []
    for which, text in (("rules", rules), ("keys", "".join(key.line() for key in keys))):
        path = os.path.join(folder, which)
        with open(path, "w", encoding="utf-8") as out:
            out.write(text)
        paths.append(path)
    return ["--rules", paths[0], "--keys", paths[1]]


def without_time(line):
    """Returns a line that a running node writes to standard error, without the time at its beginning. Without such a time,
    returns the text `no time: ` and the line."""
    found = re.match(r"\d{4}-\d\d-\d\dT\d\d:\d\d:\d\d\.\d{3}Z ", line)
    return line[found.end() :] if found else f"no time: {line}"


def report(run):
    """Calls `run`, prints how the tool ended, and returns the exit status: 0 if all checks passed, 1 if `run` raises
    Wrong, and SKIPPED if it raises Skipped. `run` returns a text that says what was done. An empty text, or one that
    begins with 0, means that nothing was done, which is a failure."""
    try:
        done = run()
        if not done or done.startswith("0 "):
            raise Wrong("nothing was checked")
    except Wrong as fault:
        print(f"FAILED: {fault}", file=sys.stderr)
        return 1
    except Skipped as why:
        print(f"skipped: {why}")
        return SKIPPED
    print(f"passed: {done}")
    return 0
