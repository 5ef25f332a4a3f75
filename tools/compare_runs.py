#!/usr/bin/env python3
"""Compares the program with the definitions on random schedules.

For each seed it draws a schedule, with lines of every form, step by step over what the program has sent so far, and
takes the text that the program writes. Then a copy of this repository, in a temporary folder, is given a
crate of one proof for each schedule: that the text computed from the definitions of the crate `schedules` is this text.
`rt check` there computes them. It is no part of the gate: it needs python3, and some minutes.

usage: tools/compare_runs.py FIRST_SEED COUNT LINES
"""
import os
import random
import re
import shutil
import subprocess
import sys
import tempfile

ROOT = os.path.dirname(os.path.dirname(os.path.realpath(__file__)))
PROGRAM = os.path.join(ROOT, "bin", "jpaxos")


def text_of(lines):
    """The text that the program writes for these lines and `end`."""
    given = "\n".join(lines + ["end"]) + "\n"
    done = subprocess.run([PROGRAM, "cluster"], input=given.encode(), stdout=subprocess.PIPE, check=True)
    return done.stdout.decode()


class Drawing:
    """A schedule in the making."""

    def __init__(self, seed):
        self.random = random.Random(seed)
        self.n = self.random.choice([3, 3, 3, 4, 5])
        mode = self.random.choice(["viewss", "epochss"])
        self.lines = ["cluster %d %s %d" % (self.n, mode, self.random.choice([1, 2, 4, 8]))]
        self.delivered = [0] * self.n  # of each replica, the least message that was not delivered in order
        self.down = set()
        self.numbers = {}
        self.leader = 0
        self.learn()
        for _ in range(2 * self.n):
            self.deliver(0)
            self.deliver(self.random.randrange(1, self.n))

    def learn(self):
        """The addressee of each message that was sent so far."""
        self.sent = [int(to) for to in re.findall(r"send \d+ (\d+) ", text_of(self.lines))]

    def deliver(self, replica):
        waiting = [m for m in range(self.delivered[replica], len(self.sent)) if self.sent[m] == replica]
        if waiting and self.random.random() < 0.93:
            message = waiting[1] if len(waiting) > 1 and self.random.random() < 0.06 else waiting[0]
            self.delivered[replica] = message + 1
            self.lines += ["deliver %d %d" % (replica, message), "protocol %d" % replica]
            self.learn()
        elif self.sent and self.random.random() < 0.3:
            message = self.random.randrange(len(self.sent))
            to = self.sent[message] if self.random.random() < 0.9 else replica
            self.lines.append("deliver %d %d" % (to, message))
        else:
            self.lines.append("protocol %d" % replica)

    def value(self):
        return "-" if self.random.random() < 0.2 else "%02x" % self.random.randrange(4)

    def command(self):
        key = "%02x" % self.random.randrange(4)
        drawn = self.random.randrange(10)
        if drawn < 4:
            return "put %s %s" % (key, self.value())
        if drawn < 7:
            return "get %s" % key
        if drawn < 8:
            return "del %s" % key
        return "cas %s %s %s" % (key, "none" if self.random.random() < 0.3 else self.value(), self.value())

    def request(self, replica):
        client = self.random.randrange(4)
        number = self.numbers.get(client, 0) + 1
        if number > 1 and self.random.random() < 0.2:
            number = self.random.randrange(1, number)
        else:
            self.numbers[client] = number
        self.lines.append("request %d %d %d %s" % (replica, client, number, self.command()))
        if self.random.random() < 0.8:
            self.lines.append("batch %d" % replica)

    def suspect(self, replica):
        """A follower enters the next view that it leads: told to, or by ticks enough."""
        if self.random.random() < 0.7:
            self.lines += ["suspect %d" % replica, "protocol %d" % replica]
        else:
            for _ in range(11):
                self.lines += ["tick %d" % replica, "protocol %d" % replica]
        self.leader = replica

    def crash_or_start(self, replica):
        """A replica that is down starts. One that is up crashes, where enough others are up."""
        if replica in self.down:
            self.down.discard(replica)
            self.lines.append("start %d" % replica)
        elif len(self.down) < (self.n - 1) // 2 or self.random.random() < 0.1:
            self.down.add(replica)
            self.lines.append("crash %d" % replica)

    def step(self):
        drawn, replica = self.random.randrange(1000), self.random.randrange(self.n)
        near = self.leader if self.random.random() < 0.8 else replica
        if drawn < 430:
            self.deliver(replica)
        elif drawn < 570:
            self.lines.append("protocol %d" % replica)
        elif drawn < 660:
            self.lines.append("service %d" % replica)
        elif drawn < 790:
            self.request(near)
        elif drawn < 840:
            self.lines.append("batch %d" % near)
        elif drawn < 910:
            self.lines += ["tick %d" % near, "batch %d" % near, "protocol %d" % near]
        elif drawn < 950:
            self.lines.append("retransmit %d" % replica)
        elif drawn < 985:
            self.crash_or_start(replica)
        else:
            self.suspect(replica)


def drawn(seed, count):
    drawing = Drawing(seed)
    steps = 0
    while len(drawing.lines) < count:
        if steps % 6 == 0:
            drawing.learn()
        drawing.step()
        steps += 1
    return drawing.lines


def proof(lines, text):
    """That the definitions give this text for these lines."""
    def listed(all_lines):
        return "".join('    codes "%s" ∷\n' % line for line in all_lines) + "    []\n"
    return (
        "-- Written by tools/compare_runs.py.\n"
        "use Rattle.std.specs.Prelude.{◌≡◌, ℕ, true, List, [], ◌∷◌, codes, refl}\n"
        "use Rattle.worked_schedules.proofs.Examples.{gives}\n\n"
        "abbrev input : List (List ℕ)\ninput =\n" + listed(lines + ["end"]) + "\n"
        "abbrev text : List (List ℕ)\ntext =\n" + listed(text.splitlines()) + "\n"
        "pub holds : gives input text ≡ true\nunfolding gives\nholds = refl\n"
    )


def standing_on(name):
    """The crates that a crate's line in crates.txt names."""
    with open(os.path.join(ROOT, "crates.txt")) as crates:
        for line in crates:
            if line.startswith(name + ":"):
                return line.split(":", 1)[1].strip()
    sys.exit("crates.txt has no line for " + name)


def main():
    if len(sys.argv) != 4:
        sys.exit(__doc__)
    first, count, length = (int(word) for word in sys.argv[1:])
    with tempfile.TemporaryDirectory() as folder:
        copy = os.path.join(folder, "jpaxos")
        shutil.copytree(ROOT, copy, ignore=shutil.ignore_patterns("out", ".git"))
        crate = os.path.join(copy, "crates", "compared")
        os.makedirs(os.path.join(crate, "src"))
        os.makedirs(os.path.join(crate, "proofs"))
        with open(os.path.join(copy, "crates.txt"), "a") as crates:
            crates.write("compared: " + standing_on("worked_schedules") + " worked_schedules\n")
        with open(os.path.join(crate, "src", "lib.rt"), "w") as root:
            root.write("//! Runs of the program beside the definitions.\n#![tactic(auto)]\n\n/// Nothing.\npub fn nothing() {}\n")
        for seed in range(first, first + count):
            lines = drawn(seed, length)
            with open(os.path.join(crate, "proofs", "Run%d.antt" % seed), "w") as one:
                one.write(proof(lines, text_of(lines)))
        with open(os.path.join(crate, "proofs", "Lib.antt"), "w") as names:
            names.write("".join("mod Run%d\n" % seed for seed in range(first, first + count)))
        done = subprocess.run(["rt", "check"], cwd=crate, stdout=subprocess.PIPE, stderr=subprocess.STDOUT)
        said = done.stdout.decode(errors="replace")
        wrong = [line for line in said.splitlines() if "error" in line]
        print("\n".join(wrong) if wrong else "%d runs are those of the definitions" % count)
        sys.exit(1 if wrong or done.returncode else 0)


if __name__ == "__main__":
    main()
