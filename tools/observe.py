#!/usr/bin/env python3
"""Checks a text of `jpaxos cluster` against its schedule, without proofs.

It reads off the text what the definition `Observed` (crates/observed_laws/specs/Observed.antt) says of it, which the
program's contract promises of every text that it writes:

- the lines are the schedule's lines, in order, and at the end stands a line for each replica;
- one list of batches explains all that is shown: every request in it was asked for by a `request` line that was
  answered `done`, before a replica executed it; each execution shows the replies that a single server gives which runs
  the batches in order; each store at the end is that server's after as many batches as the replica executed; and each
  request takes effect once at most;
- each replica starts only where it is down, does all else only where it is up, executes one instance after another from
  0 or from where it restored, restores only forward, and while it is recovering enters no view, promises, prepares,
  launches, votes and answers nothing.

Beyond that record it checks the answer words: a line is answered `down`, `up` or `unsent` exactly where the text shows
why; and `empty` or `full` exactly where the lanes are empty or full, which it follows from line to line by the rules of
docs/PROTOCOL.md.

usage: tools/observe.py TEXT..                    the schedule of RUN.text is RUN.schedule
       tools/observe.py --schedule FILE TEXT

It ends with 0 where all of it holds, with 1 at a text in which something does not, which is told with its line, and with
2 where it is called wrongly or a file cannot be read.
"""
import sys

from run_text import Cluster, Wrong, read, replicas_of, whole

SILENT = {"enter": "enters a view", "promise": "promises", "prepared": "becomes Prepared", "launch": "proposes", "vote": "votes", "answer": "answers a recovery"}
STEPS = set(SILENT) | {"first", "return", "crash", "learn", "rejoin", "install", "execute", "restore", "send"}
STORE_KEYS = 16384
MOST_READINGS = 64


class Life:
    """What was seen of a replica: whether it is up, whether it is recovering, and which instance it executes next."""

    def __init__(self):
        self.up, self.recovering, self.next = False, False, 0

    def step(self, number, replica, step):
        """The next step of the replica, if it may come."""
        kind = step[0]
        if kind in ("first", "return"):
            if self.up:
                raise Wrong(number, "replica %d starts, and is up" % replica)
            self.up, self.recovering, self.next = True, kind == "return", 0
            return
        if not self.up:
            raise Wrong(number, "replica %d shows `%s`, and is down" % (replica, " ".join(step)))
        if kind == "crash":
            self.up = False
        elif kind in SILENT and self.recovering:
            raise Wrong(number, "replica %d %s while it is recovering" % (replica, SILENT[kind]))
        elif kind == "rejoin":
            if not self.recovering:
                raise Wrong(number, "replica %d rejoins, and was not recovering" % replica)
            self.recovering = False
        elif kind == "execute":
            instance = whole(number, step[2])
            if instance != self.next:
                raise Wrong(number, "replica %d executes instance %d where instance %d comes next" % (replica, instance, self.next))
            self.next += 1
        elif kind == "restore":
            upto = whole(number, step[2])
            if upto <= self.next:
                raise Wrong(number, "replica %d restores the state before instance %d, and has executed as far" % (replica, upto))
            self.next = upto


def outcome_of(number, word):
    """An outcome as it is shown: the client, its number, the kind, and the reply."""
    for kind in "+=~":
        name, there, reply = word.partition(kind)
        if there:
            client, dot, request = name.partition(".")
            if not dot:
                break
            return whole(number, client), whole(number, request), kind, reply
    raise Wrong(number, "`%s` is no outcome of a request" % word)


def applied(store, command):
    """The store and the reply after a command."""
    kind, key, *rest = command
    store = dict(store)
    held = store.get(key)
    told = "none" if held is None else "value:" + held
    if kind == "get":
        return store, told
    if kind == "del":
        store.pop(key, None)
        return store, "none" if held is None else "ok"
    if kind == "cas" and ("none" if held is None else held) != rest[0]:
        return store, told
    if held is None and len(store) >= STORE_KEYS:
        return store, "full"
    store[key] = rest[-1]
    return store, "ok"


class Service:
    """The single server that runs the batches in order. Two `request` lines may have the same client and number and
    different commands; the text does not show which of them a batch has, so each reading that fits is kept."""

    def __init__(self):
        self.readings = [({}, {})]  # a store, and of each client its last number and reply
        self.first = set()
        self.judged = True

    def execute(self, number, instance, outcomes, commands):
        """Runs a batch, of which these outcomes are shown at this line."""
        for client, request, kind, reply in outcomes:
            name = "%d.%d" % (client, request)
            if kind == "+" and name in self.first:
                raise Wrong(number, "request %s takes effect twice" % name)
            if kind == "+":
                self.first.add(name)
            following = []
            for store, last in self.readings:
                for made in self.taken(store, last, client, request, kind, reply, commands[name]):
                    if made not in following:
                        following.append(made)
            if not following:
                raise Wrong(number, "instance %d shows %s%s%s, which is not what a single server answers that runs the batches in order" % (instance, name, kind, reply))
            if len(following) > MOST_READINGS:
                self.judged = False
                following = following[:MOST_READINGS]
            self.readings = following

    @staticmethod
    def taken(store, last, client, request, kind, reply, commands):
        """What a reading comes to by a request, with each command that it may have had, where the outcome fits."""
        held = last.get(client)
        if held is None or held[0] < request:
            for command in commands:
                after, told = applied(store, command)
                if (kind, reply) == ("+", told):
                    yield after, {**last, client: (request, told)}
        elif (kind, reply) == (("=", held[1]) if held[0] == request else ("~", "")):
            yield store, last


class Run:
    """A text that is being checked."""

    def __init__(self, text, schedule):
        self.events, self.last = read(text)
        self.lines(schedule)
        self.n = replicas_of(self.events)
        if len(self.last) != self.n:
            raise Wrong(0, "it ends with lines of %d replicas, and the cluster has %d" % (len(self.last), self.n))
        self.asked = {}  # of each request, each command that was asked for, with the first line that asked
        self.shown = {}  # of each instance that was executed, its outcomes and the first line that shows it
        self.executions = 0

    def lines(self, schedule):
        """The lines of the text are those of the schedule."""
        wanted = schedule.split("\n")[:-1]
        for event, line in zip(self.events, wanted):
            if event.line != line:
                raise Wrong(event.number, "the schedule has `%s` here" % line)
        if len(self.events) != len(wanted):
            raise Wrong(0, "it has %d lines of a schedule, and the schedule has %d" % (len(self.events), len(wanted)))

    def words_and_lives(self):
        """Each line is answered by the word that the text shows why, and the steps of each replica may come so."""
        cluster, lives = Cluster(self.n), [Life() for _ in range(self.n)]
        for event in self.events:
            word, why = cluster.expected(event)
            if word is None and event.word not in ("empty", "done") or word is not None and event.word != word:
                raise Wrong(event.number, "it is answered `%s`, and `%s` is expected: %s" % (event.word, word or "done` or `empty", why))
            if event.word != "done" and event.steps:
                raise Wrong(event.number, "it is answered `%s`, and shows steps" % event.word)
            for step in event.steps:
                if step[0] not in STEPS:
                    raise Wrong(event.number, "`%s` is no step" % step[0])
                if step[0] != "send":
                    replica = whole(event.number, step[1])
                    if not replica < self.n:
                        raise Wrong(event.number, "there is no replica %d" % replica)
                    lives[replica].step(event.number, replica, step)
                if step[0] == "execute":
                    self.execution(event, step)
            cluster.take(event)
            if event.name == "request" and event.word == "done":
                asked = self.asked.setdefault("%s.%s" % (event.words[2], event.words[3]), {})
                asked.setdefault(tuple(event.words[4:]), event.number)
        for replica, (life, last) in enumerate(zip(lives, self.last)):
            self.ending(replica, life, last)

    @staticmethod
    def ending(replica, life, last):
        """What a replica ends with is what its steps have shown."""
        if life.up != last.up:
            raise Wrong(last.number, "replica %d is %s by its steps" % (replica, "up" if life.up else "down"))
        if life.up:
            phase = "recovering" if life.recovering else "working"
            if (last.phase, last.executed) != (phase, life.next):
                raise Wrong(last.number, "by its steps replica %d is %s and has executed %d" % (replica, phase, life.next))

    def execution(self, event, step):
        """All replicas show the same outcomes of an instance."""
        instance, outcomes = whole(event.number, step[2]), step[3:]
        known, number = self.shown.setdefault(instance, (outcomes, event.number))
        if known != outcomes:
            raise Wrong(event.number, "instance %d was executed with other outcomes at line %d" % (instance, number))
        self.executions += 1

    def one_list(self):
        """One list of batches, each request of it asked for before, explains the replies and the stores."""
        by = []  # of each instance, the first line that shows it or a later one executed
        for instance in sorted(self.shown, reverse=True):
            by.append(min(self.shown[instance][1], by[-1] if by else self.shown[instance][1]))
        by.reverse()
        service, stores = Service(), [[{}]]
        for instance in range(len(self.shown)):
            if instance not in self.shown:
                raise Wrong(self.shown[max(self.shown)][1], "no line shows the execution of instance %d, which is below" % instance)
            outcomes, number = self.shown[instance]
            outcomes = [outcome_of(number, word) for word in outcomes]
            commands = {}
            for client, request, _, _ in outcomes:
                name = "%d.%d" % (client, request)
                commands[name] = [command for command, line in self.asked.get(name, {}).items() if line < by[instance]]
                if not commands[name]:
                    raise Wrong(by[instance], "instance %d has request %s, for which no earlier line asked that was answered `done`" % (instance, name))
            service.execute(number, instance, outcomes, commands)
            stores.append([store for store, _ in service.readings] if service.judged else None)
        for replica, last in enumerate(self.last):
            if last.up and not last.executed < len(stores):
                raise Wrong(last.number, "replica %d executed %d batches, and the text shows %d" % (replica, last.executed, len(self.shown)))
            if last.up and stores[last.executed] is not None:
                if last.pairs not in [sorted(store.items()) for store in stores[last.executed]]:
                    raise Wrong(last.number, "the store of replica %d is not that of a single server after the first %d batches" % (replica, last.executed))


def check(text, schedule):
    """Checks a text, and tells what it has."""
    run = Run(text, schedule)
    run.words_and_lives()
    run.one_list()
    return "%d lines, %d executions, %d batches" % (len(run.events), run.executions, len(run.shown))


def pairs_of(words):
    """The texts and their schedules that the words name."""
    if words[:1] == ["--schedule"] and len(words) == 3:
        return [(words[2], words[1])]
    if not words or any(word.startswith("-") or not word.endswith(".text") for word in words):
        return None
    return [(word, word[: -len(".text")] + ".schedule") for word in words]


def main(words):
    pairs = pairs_of(words)
    if pairs is None:
        print(__doc__.strip(), file=sys.stderr)
        return 2
    status = 0
    for text, schedule in pairs:
        try:
            with open(text, newline="") as told, open(schedule, newline="") as given:
                print("%s: holds: %s" % (text, check(told.read(), given.read())))
        except Wrong as wrong:
            at = "line %d: " % wrong.number if wrong.number else ""
            print("%s: %s%s" % (text, at, wrong), file=sys.stderr)
            status = max(status, 1)
        except (OSError, UnicodeDecodeError) as fault:
            print("tools/observe.py: %s" % fault, file=sys.stderr)
            status = 2
    return status


if __name__ == "__main__":
    sys.exit(main(sys.argv[1:]))
