"""The text of a run, read: its events, the messages that it shows, and what stands in the lanes of each replica.

`tools/observe.py` and `tools/picture` read texts by it. What a line shows is docs/FORMATS.md; what stands in a lane, and
when a lane is empty or full, is docs/PROTOCOL.md.
"""
from collections import deque

LANE_LIMIT = 64
BATCH_BYTES = 65536
BATCH_REQUESTS = 1024
SNAPSHOT_STEP = 256
SLOTS = 256
NUMBER_LIMIT = 2**48


class Wrong(Exception):
    """What is wrong with a line of the text, told in words. Lines are counted from 1; 0 is the text as a whole."""

    def __init__(self, number, what):
        super().__init__(what)
        self.number = number


class Event:
    """A line of the schedule with its answer word and its steps, each as its words."""

    def __init__(self, number, text):
        self.number = number
        self.line, given, rest = text.partition(" = ")
        if not given:
            raise Wrong(number, "it has no ` = ` and answer word")
        self.words = self.line.split(" ")
        self.word, *steps = rest.split("; ")
        self.steps = [step.split(" ") for step in steps]
        if not all(len(step) > 1 for step in self.steps):
            raise Wrong(number, "a step has no operands")

    @property
    def name(self):
        """The first word of the line."""
        return self.words[0]

    def replica(self):
        """The replica that the line is of, if it is of one."""
        return None if self.name in ("cluster", "end") else number_in(self, self.words[1:2])


class Last:
    """How a replica ends: its phase, view, executed number and store, or that it is down."""

    def __init__(self, number, words):
        self.number = number
        self.up = words[2:] != ["down"]
        if self.up:
            if len(words) < 5 or words[2] not in ("working", "recovering"):
                raise Wrong(number, "it is neither `replica R down` nor `replica R PHASE VIEW EXECUTED K=V ..`")
            self.phase = words[2]
            self.view, self.executed = whole(number, words[3]), whole(number, words[4])
            self.pairs = [tuple(pair.split("=", 1)) for pair in words[5:]]
            if not all(len(pair) == 2 for pair in self.pairs):
                raise Wrong(number, "a key stands there without a value")


def whole(number, word):
    """A number that a line shows."""
    if not (word.isascii() and word.isdigit()):
        raise Wrong(number, "`%s` stands where a number is expected" % word)
    return int(word)


def number_in(event, words):
    """The number that the only one of these words is."""
    if not words:
        raise Wrong(event.number, "an operand is missing")
    return whole(event.number, words[0])


def read(text):
    """The events of a text, and how each replica ends. The first event is the `cluster` line."""
    lines = text.split("\n")
    if lines.pop() != "":
        raise Wrong(len(lines) + 1, "it has no line feed at its end")
    events, last = [], []
    for number, line in enumerate(lines, 1):
        if line.startswith("replica "):
            words = line.split(" ")
            if whole(number, words[1]) != len(last):
                raise Wrong(number, "the line of replica %d is expected here" % len(last))
            last.append(Last(number, words))
        elif last:
            raise Wrong(number, "a line of the schedule stands behind a line of how a replica ends")
        else:
            events.append(Event(number, line))
    if not events or events[0].name != "cluster":
        raise Wrong(1, "the first line is not a `cluster` line")
    return events, last


def replicas_of(events):
    """How many replicas the `cluster` line has."""
    return number_in(events[0], events[0].words[1:2])


class Message:
    """A message that was sent: by which replica, to which, its word, and the event that shows it."""

    def __init__(self, sender, to, kind, event):
        self.sender, self.to, self.kind, self.event = sender, to, kind, event


def senders(event):
    """Each step of the event with the replica that it is of. A `send` goes out with the step before it, or is of the line."""
    replica = event.replica()
    for step in event.steps:
        if step[0] != "send":
            replica = whole(event.number, step[1])
        yield replica, step


def request_bytes(words):
    """The bytes that a request takes in a batch, by the words of its command (docs/FORMATS.md)."""
    size = [0 if word == "-" else len(word) // 2 for word in words[1:]]
    if words[0] == "put":
        return 21 + sum(size)
    if words[0] == "cas":
        return (22 + size[0] + size[2]) if words[2] == "none" else (24 + sum(size))
    return 19 + sum(size)


class Replica:
    """What stands in the lanes of a replica that is up, as far as the words that answer its lines depend on it."""

    def __init__(self):
        self.requests = deque()  # ("tick",) and ("request", name, bytes)
        self.batch = []  # the requests of the batch that is being made: names and bytes
        self.dispatcher = deque()  # ("tick",), ("suspect",), ("came", message), ("closed", names), ("snapshot", k)
        self.decisions = deque()  # ("decided", i) and ("installed", k)
        self.known, self.known_below = set(), 0
        self.handed, self.installed, self.executed = 0, 0, 0
        self.armed, self.past_slots = set(), False

    def closes(self, item):
        """Whether an item of the request lane closes the batch that is being made."""
        if not self.batch:
            return False
        held = 4 + sum(size for _, size in self.batch)
        return item[0] == "tick" or held + item[2] > BATCH_BYTES or len(self.batch) == BATCH_REQUESTS

    def take_request(self):
        """The Batcher takes an item."""
        item = self.requests.popleft()
        if self.closes(item):
            self.dispatcher.append(("closed", [name for name, _ in self.batch]))
            self.batch = []
        if item[0] == "request":
            self.batch.append(item[1:])

    def hands_on(self, room):
        """The Protocol stage hands on what it knows, in order, as far as there is room."""
        for _ in range(room):
            if self.installed > self.handed:
                self.handed = self.installed
                self.decisions.append(("installed", self.handed))
            elif self.handed in self.known:
                self.decisions.append(("decided", self.handed))
                self.handed += 1
            else:
                return

    def front_makes_snapshot(self):
        """Whether executing the front decision makes a snapshot."""
        return self.decisions[0] == ("decided", self.executed) and (self.executed + 1) % SNAPSHOT_STEP == 0

    def is_known(self, instance):
        return instance < self.known_below or instance in self.known

    def arm(self, what):
        """A message is repeated from now on. Past 256 of them, which are kept is not followed here."""
        self.armed.add(what)
        self.past_slots = self.past_slots or len(self.armed) > SLOTS

    def show(self, event, step):
        """A step that the replica shows."""
        kind = step[0]
        if kind == "enter":
            self.armed = {it for it in self.armed if it[0] not in ("prepare", "propose")}
        elif kind == "prepared":
            self.armed.discard(("prepare",))
        elif kind == "rejoin":
            self.armed.discard(("recovery",))
        elif kind == "send" and step[3] in ("prepare", "recovery", "query"):
            self.arm((step[3],))
        elif kind == "launch" and not self.is_known(whole(event.number, step[3])):
            self.arm(("propose", whole(event.number, step[3])))
        elif kind == "learn":
            self.known.add(whole(event.number, step[2]))
            self.armed.discard(("propose", whole(event.number, step[2])))
        elif kind == "install":
            self.installed = self.known_below = whole(event.number, step[2])
            self.armed.discard(("query",))
        elif kind == "execute":
            self.executed = whole(event.number, step[2]) + 1
        elif kind == "restore":
            self.executed = whole(event.number, step[2])


class Cluster:
    """The lanes of all replicas, line by line: which word a line has to be answered with, and which item a stage takes."""

    def __init__(self, n):
        self.up = [None] * n
        self.messages = []

    def expected(self, event):
        """The word that answers the line and why, before its event. No word where the text does not show which."""
        name = event.name
        if name in ("cluster", "end"):
            return "done", "it always is"
        replica = event.replica()
        if not replica < len(self.up):
            raise Wrong(event.number, "there is no replica %d" % replica)
        up = self.up[replica]
        if name == "start":
            return ("done", "replica %d is down" % replica) if up is None else ("up", "replica %d is up" % replica)
        if name == "deliver":
            number = number_in(event, event.words[2:3])
            if number >= len(self.messages):
                return "unsent", "no line before it shows `send %d`" % number
            if self.messages[number].to != replica:
                return "unsent", "message %d was sent to replica %d" % (number, self.messages[number].to)
        if up is None:
            return "down", "replica %d is down" % replica
        if name == "crash":
            return "done", "replica %d is up" % replica
        if name == "retransmit":
            if up.past_slots:
                return None, ""
            return ("done", "a message is repeated") if up.armed else ("empty", "no message is repeated")
        return self.by_lanes(name, up)

    @staticmethod
    def by_lanes(name, up):
        """The word that answers a line of a replica that is up, by the lanes that it reads and fills."""
        reads = {"batch": ("request", up.requests), "protocol": ("dispatcher", up.dispatcher), "service": ("decision", up.decisions)}
        fills = {"request": [("request", up.requests)], "suspect": [("dispatcher", up.dispatcher)], "deliver": [("dispatcher", up.dispatcher)]}
        fills["tick"] = fills["request"] + fills["suspect"]
        if name in reads and not reads[name][1]:
            return "empty", "nothing is in its %s lane" % reads[name][0]
        if name == "batch" and up.closes(up.requests[0]) or name == "service" and up.front_makes_snapshot():
            fills[name] = fills["suspect"]
        for lane, items in fills.get(name, []):
            if len(items) >= LANE_LIMIT:
                return "full", "its %s lane holds %d items" % (lane, len(items))
        return "done", "its lanes have what it takes and room for what it puts"

    def take(self, event):
        """What the event does to the lanes. It is the item that a stage took, if one did."""
        replica, taken = event.replica(), None
        up = None if replica is None else self.up[replica]
        if event.word == "done" and up is not None:
            taken = self.take_by(event, up)
        room = 0 if up is None else LANE_LIMIT - len(up.decisions)
        self.show(event)
        if event.name == "protocol" and event.word == "done" and up is not None:
            up.hands_on(room)
        if event.name == "service" and taken is not None and up.executed % SNAPSHOT_STEP == 0 and any(step[0] == "execute" for step in event.steps):
            up.dispatcher.append(("snapshot", up.executed))
        return taken

    def take_by(self, event, up):
        """What a line that is done takes out of a lane, and what it puts in."""
        name, words = event.name, event.words
        if name == "request":
            if len(words) < 5:
                raise Wrong(event.number, "the request has no command")
            up.requests.append(("request", words[2] + "." + words[3], request_bytes(words[4:])))
        elif name == "tick":
            up.requests.append(("tick",))
            up.dispatcher.append(("tick",))
        elif name == "suspect":
            up.dispatcher.append(("suspect",))
        elif name == "deliver":
            up.dispatcher.append(("came", number_in(event, words[2:3])))
        elif name == "batch" and up.requests:
            up.take_request()
        elif name == "service" and up.decisions:
            return up.decisions.popleft()
        elif name == "protocol" and up.dispatcher:
            item = up.dispatcher.popleft()
            if item[0] == "came" and self.messages[item[1]].kind == "batches":
                up.armed.discard(("query",))
            return item
        return None

    def show(self, event):
        """The steps of the event: replicas that start and end, messages, and what each replica shows."""
        for replica, step in senders(event):
            if replica is None or not replica < len(self.up):
                raise Wrong(event.number, "the step `%s` is of no replica of the cluster" % " ".join(step))
            if step[0] == "send":
                if len(step) != 4 or whole(event.number, step[1]) != len(self.messages):
                    raise Wrong(event.number, "`%s` stands where message %d is expected" % (" ".join(step), len(self.messages)))
                self.messages.append(Message(replica, whole(event.number, step[2]), step[3], event))
            if step[0] in ("first", "return"):
                self.up[replica] = Replica()
            elif step[0] == "crash":
                self.up[replica] = None
            elif self.up[replica] is not None:
                self.up[replica].show(event, step)
