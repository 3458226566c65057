"""Figures of runs of clusters: figures.py PROGRAM MAKE [DESIGN..]; `run` beside it says what is measured."""
import os
import re
import subprocess
import sys
import tempfile
import time

from talking import talking

BLOCK = 4096

COMPILE = """text 0 "/h/1"
text 8 "/h/2"
text 16 "/h/3"
text 24 "/h/4"
text 32 "/h/5"
text 40 "/o/00"
set r7 10
mov r6 r1
div r6 r7
addi r6 48
set r2 43
stb r2 r6
mod r1 r7
addi r1 48
set r2 44
stb r2 r1
set r7 0
set r6 40
header:
mov r0 r7
set r1 4
set r2 1
sys open r0 r1 r2
sys read r0 4096 16384
sys close 0
addi r7 8
jlt r7 r6 header
sys open 40 5 14
sys write 0 4096 9216
sys close 0
sys exit 0
"""

CALLS = """text 0 "/f/00"
text 16 "abcdefgh"
set r7 10
mov r6 r1
div r6 r7
addi r6 48
set r2 3
stb r2 r6
mod r1 r7
addi r1 48
set r2 4
stb r2 r1
set r7 60
sys open 0 5 7
again:
sys seek 0 0
sys write 0 16 8
sys seek 0 0
sys read 0 32 8
sys tick
set r6 1
sub r7 r6
jne r7 r5 again
sys exit 0
"""


def cluster(text, clients, processes, cache, files=(), pages=1):
    parts = ["version = 1\nbudget = 4000000\ncache = %d\n" % cache]
    parts += ['[[kernel]]\nname = "c%d"\n' % (number + 1) for number in range(clients)] + ['[[kernel]]\nname = "s1"\nserves = ["/"]\n']
    parts += ["[[program]]\nname = \"p\"\ntext = '''\npages %d\n%s'''\n" % (pages, text)]
    parts += ['[[start]]\nhost = "c%d"\nprogram = "p"\narg = %d\n' % (number % clients + 1, number) for number in range(processes)]
    parts += ['[[file]]\npath = "%s"\ntext = "%s"\nrepeat = %d\n' % file for file in files]
    return "".join(parts).encode()


def timed(words, file, status=0):
    """How long a run takes, and what it prints."""
    start = time.time()
    ran = subprocess.run(words, input=file, capture_output=True)
    took = time.time() - start
    assert ran.returncode == status, (words, ran.returncode, ran.stdout[:200])
    return took, ran.stdout


def best(words, file, times=5, status=0):
    return min(timed(words, file, status)[0] for _ in range(times))


def most_memory(words, file):
    """How many kilobytes a run takes at most."""
    with tempfile.TemporaryFile() as held:
        held.write(file)
        held.seek(0)
        pid = subprocess.Popen(words, stdin=held, stdout=subprocess.DEVNULL).pid
        return os.wait4(pid, 0)[2].ru_maxrss


def printed_length(text):
    return len(re.sub(rb"\\[0-9a-f]{2}|\\.", b"x", text))


def crossed(trace, server):
    """How many bytes of file data the requests and replies of a run carry: blocks that are fetched or written back, and what is read or written
    at the server."""
    count = 0
    for line in trace.splitlines():
        words = line.split(b" ")
        if words[1] == b"Send" and b"fetch" in words:
            count += BLOCK
        elif words[1] == b"Send" and b"writeback" in words:
            count += BLOCK
        elif words[1] == b"Enter" and int(words[0]) == server and words[5] in (b"read", b"write") and b" -> ok " in line:
            count += printed_length(line.split(b'"')[1] if words[5] == b"write" else line.rsplit(b'"', 2)[1])
    return count


def against_design(program, design):
    """Two clusters that talk until their budget is spent, by a seed, against the design."""
    for clients, each in ((4, 2), (8, 8)):
        file = talking(clients, each, 100_000).encode()
        took = best([program, "run", "--seed", "1"], file, 3, 4)
        said = "%d talking processes on %d clients by a seed: %.2f microseconds a unit" % (clients * each, clients, 10 * took)
        if design:
            other = timed(list(design), file, 4)[0]
            said += "; the design %.1f s, %.0f times as long" % (other, other / took)
        print(said)


def large(program):
    """Sixteen kernels with 64 programs, by caches, and a unit of a long run against one of a short run."""
    each = {}
    for budget, cache in ((100_000, 64), (4_000_000, 0), (4_000_000, 64), (4_000_000, 4096)):
        took = best([program, "run", "--seed", "1"], talking(8, 8, budget, cache, 8).encode(), 1, 4)
        each[budget, cache] = took / budget
        print("sixteen kernels, 64 programs, %d units, caches of %d blocks: %.2f microseconds a unit" % (budget, cache, 1e6 * took / budget))
    print("a unit of 4,000,000 takes %.2f times as long as one of 100,000" % (each[4_000_000, 64] / each[100_000, 64]))


def units_of(trace):
    return trace.count(b"\n")


def main(program, make, *design):
    run, trace = [program, "run"], [program, "trace"]
    with open(make, "rb") as file:
        make = file.read()
    took = best(run, make)
    if design:
        other, said = timed(list(design), make)
        assert said == timed(run, make)[1]
        print("parallel make: %.3f s; the design %.1f s, %.0f times as long" % (took, other, other / took))
    else:
        print("parallel make: %.3f s" % took)
    headers = [("/h/%d" % number, "0123456789abcdef", 1024) for number in range(1, 6)] + [("/o/there", "", 1)]
    sizes = [crossed(timed(trace, cluster(COMPILE, 1, 60, cache, headers, 5))[1], 2) for cache in (64, 0)]
    print("sixty compilations: %d bytes of file data cross the link with a cache of 64 blocks, %d without one: %.1f %%" % (*sizes, 100 * sizes[0] / sizes[1]))
    each = []
    for processes in (8, 64):
        file = cluster(CALLS, 8, processes, 64, [("/f/there", "", 1)])
        records = units_of(timed(trace, file)[1])
        each.append(best(run, file) / records)
        print("%d processes: %d records, %.2f microseconds a record" % (processes, records, 1e6 * each[-1]))
    print("a record with 64 processes takes %.2f times as long as with 8" % (each[1] / each[0]))
    least, most = (most_memory([program, "run", "--seed", "1"], talking(8, 8, budget).encode()) for budget in (100_000, 1_000_000))
    print("memory: %d KB for 100,000 units, %d KB for 1,000,000, %.0f bytes a unit" % (least, most, 1024 * (most - least) / 900_000))
    against_design(program, design)
    large(program)


if __name__ == "__main__":
    main(*sys.argv[1:])
