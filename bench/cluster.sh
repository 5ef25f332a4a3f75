#!/bin/sh
# Times the built program on drawn schedules and on one that executes many requests, and prints for each how many lines a
# second it ran and the most memory that it took. The bounds are printed beside, and nothing fails on them.
root=$(CDPATH='' cd -- "$(dirname -- "$0")/.." && pwd) || exit 1
program=${1:-$root/crates/jpaxos/out/jpaxos}
[ -x "$program" ] || { echo "bench/cluster.sh: no program at $program (bin/jpaxos builds it)" >&2; exit 1; }
exec python3 - "$program" <<'PYTHON'
import os, sys, tempfile, time

PROGRAM = sys.argv[1]
LINES = 100_000
RUNS = 25
# requests that go into one batch, and after how many executed instances each replica takes a snapshot
BATCH, SNAPSHOT = 5, 256


def many_requests(schedule):
    """Writes a schedule of so many lines, in which three replicas execute each request: a leader that is Prepared proposes
    batch after batch, and the three learn and execute each one."""
    def write(lines):
        schedule.write("".join(line + "\n" for line in lines).encode())
        return len(lines)

    written = write(["cluster 3 viewss 8", "deliver 1 0", "protocol 1", "deliver 0 2", "protocol 0"])
    sent, instance = 3, 0
    while True:
        turn = []
        for client in range(BATCH):
            key, value = f"{(instance * BATCH + client) % 1000:04x}", f"{instance % 65536:04x}"
            turn += [f"request 0 {client} {instance + 1} put {key} {value}", "batch 0"]
        # the tick closes the batch; the Protocol stage takes the tick and sends two messages, and then the batch
        turn += ["tick 0", "batch 0", "protocol 0", "protocol 0"]
        to_1, to_2, accept_0 = sent + 2, sent + 3, sent + 4
        turn += [f"deliver 1 {to_1}", "protocol 1", "service 1", f"deliver 0 {accept_0}", "protocol 0", "service 0"]
        turn += [f"deliver 2 {to_2}", "protocol 2", "service 2"]
        sent, instance = sent + 8, instance + 1
        if instance % SNAPSHOT == 0:
            turn += ["protocol 0", "protocol 1", "protocol 2"]
        if written + len(turn) > LINES - 1:
            break
        written += write(turn)
    while written < LINES - 1:
        written += write(["service 0"])
    write(["end"])
    schedule.flush()


def run(words, source):
    """The seconds and the most memory, in megabytes, of one run, and how many requests it executed in how many batches. The
    system counts at least the memory of this script itself, so that keeps no text."""
    source.seek(0)
    with tempfile.TemporaryFile() as sink:
        begun = time.perf_counter()
        child = os.posix_spawn(
            PROGRAM, [PROGRAM, *words], os.environ,
            file_actions=[(os.POSIX_SPAWN_DUP2, source.fileno(), 0), (os.POSIX_SPAWN_DUP2, sink.fileno(), 1)],
        )
        _, status, usage = os.wait4(child, 0)
        seconds = time.perf_counter() - begun
        if os.waitstatus_to_exitcode(status) != 0:
            sys.exit(f"bench/cluster.sh: {' '.join(words)} ended with status {os.waitstatus_to_exitcode(status)}")
        sink.seek(0)
        executed = [(line.count(b"+ok"), line.count(b"; execute ")) for line in sink if b"; execute " in line]
    return seconds, usage.ru_maxrss / 1024, sum(ok for ok, _ in executed), sum(batches for _, batches in executed)


def quickest(cases):
    """For each case the seconds of its quickest run, the most memory that one took, and what the last one executed. Other
    work on the machine only adds to the time of a run, so that the quickest tells the most. The cases take turns, so that a
    while in which the machine is slow does not meet one of them alone."""
    runs = [[run(words, source) for words, source in cases] for _ in range(RUNS)]
    return [
        (min(seconds for seconds, *_ in own), max(memory for _, memory, *_ in own), *own[-1][2:])
        for own in zip(*runs)
    ]


def show(name, lines, seconds, memory, rest=""):
    print(f"{name:28} {lines:7} lines {seconds:8.3f} s {lines / seconds:12,.0f} lines/s {memory:8.1f} MB{rest}", flush=True)


DRAWN = [(7, 5, 20_000), (7, 5, 99_998), (8, 9, 99_998)]
with tempfile.TemporaryFile() as nothing, tempfile.TemporaryFile() as schedule:
    many_requests(schedule)
    cases = [(["gen", *(str(number) for number in drawn)], nothing) for drawn in DRAWN] + [(["cluster"], schedule)]
    *drawn_runs, (seconds, memory, executed, batches) = quickest(cases)
for (seed, n, steps), (drawn_seconds, drawn_memory, *_) in zip(DRAWN, drawn_runs):
    bound = "   (bounds: 2 s, 400 MB)" if (seed, n, steps) == (7, 5, 99_998) else ""
    show(f"gen {seed} {n} {steps}", steps + 2, drawn_seconds, drawn_memory, bound)
print(f"gen 7 5: five times the steps take {drawn_runs[1][0] / drawn_runs[0][0]:.2f} times as long   (bound: 7)")
show("cluster, many requests", LINES, seconds, memory)
print(f"requests executed: {executed}, in {batches} batches")
PYTHON
