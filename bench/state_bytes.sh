#!/bin/sh
# Measures the built program that turns a service's state into bytes and reads it back, on states of 16,384 keys, and prints
# for each the bytes, the time and the most memory that it took. The bounds are printed beside, and nothing fails on them.
root=$(CDPATH='' cd -- "$(dirname -- "$0")/.." && pwd) || exit 1
program=${1:-$root/crates/state_bytes/out/state_bytes}
[ -x "$program" ] || { echo "bench/state_bytes.sh: no program at $program ('rt run -- 16 8' in crates/state_bytes proves and builds it)" >&2; exit 1; }
exec python3 - "$program" <<'PYTHON'
import os, sys, tempfile, time

PROGRAM = sys.argv[1]
KEYS = 16_384
LENGTHS = [1_024, 2_048, 4_096]
# Other work on the machine only adds to the time of a run, so that the quickest of some tells the most.
RUNS = 5
MEGABYTE = 1_000_000
# the largest state may take this many times as long a byte as the smallest
TIMES = 2
# and each state may take this many times its bytes, and so many megabytes more for what is no part of a state
SHARE, BESIDE = 2.2, 10


def run(length):
    """The seconds and the most memory, in bytes, of one run, and the bytes of the state that it tells."""
    words = [PROGRAM, str(KEYS), str(length)]
    with tempfile.TemporaryFile() as sink:
        begun = time.perf_counter()
        child = os.posix_spawn(PROGRAM, words, os.environ, file_actions=[(os.POSIX_SPAWN_DUP2, sink.fileno(), 1)])
        _, status, usage = os.wait4(child, 0)
        seconds = time.perf_counter() - begun
        if os.waitstatus_to_exitcode(status) != 0:
            sys.exit(f"bench/state_bytes.sh: {KEYS} {length} ended with status {os.waitstatus_to_exitcode(status)}")
        sink.seek(0)
        told = sink.read().decode().split()
    # What the system tells is never less than what this interpreter took, some 13 MB: too little to matter here.
    return seconds, usage.ru_maxrss * 1024, int(told[told.index("bytes,") - 1])


paces = []
for length in LENGTHS:
    runs = [run(length) for _ in range(RUNS)]
    seconds, memory, count = min(seconds for seconds, _, _ in runs), max(memory for _, memory, _ in runs), runs[0][2]
    paces.append(seconds / count)
    bound = (SHARE * count + BESIDE * MEGABYTE) / MEGABYTE
    print(
        f"{KEYS} keys of {length:4} bytes {count:10,} bytes {seconds:7.3f} s {paces[-1] * 1e9:6.2f} ns/byte "
        f"{memory / MEGABYTE:6.1f} MB {memory / count:5.2f} MB/MB   (bound: {bound:.1f} MB)",
        flush=True,
    )
print(f"a byte of the largest takes {paces[-1] / paces[0]:.2f} times as long as one of the smallest   (bound: {TIMES})")
PYTHON
