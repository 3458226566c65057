"""Makes random cluster files and runs them: clusters.py PROGRAM N SEED [JUDGE..]; `run` beside it says the rest."""
import random
import subprocess
import sys
from collections import Counter

PATHS = ["/a", "/b", "/d/x", "/d/y", "/e/z", "/d"]
# Where the texts of a program stand: its paths, each 16 bytes apart, kernels' names, what is written, and a place for what is read.
NAMES_AT, DATA_AT, READ_AT = 128, 192, 1024
DATA = "abcdefghijklmnop"


def path_of(rng):
    place = rng.randrange(len(PATHS))
    return "%d %d" % (16 * place, len(PATHS[place]))


def one_call(rng, clients):
    """The lines of one random call."""
    fd, path = rng.randrange(3), path_of(rng)
    length, at = rng.choice([1, 3, 16]), DATA_AT + rng.randrange(8)
    calls = [
        (9, "sys open %s %d" % (path, rng.choice([1, 3, 6, 7, 7, 7, 14, 15]))),
        (6, "sys read %d %d %d" % (fd, READ_AT, rng.choice([1, 5, 4096]))),
        (7, "sys write %d %d %d" % (fd, at, length)),
        (3, "sys seek %d %d" % (fd, rng.choice([0, 1, 4095, 4096, 9000]))),
        (3, "sys close %d" % fd),
        (2, "sys dup %d" % fd),
        (2, "sys size %d" % fd),
        (2, "sys sync %d" % fd),
        (1, "sys stat %s" % path),
        (1, "sys mkdir %s" % path),
        (1, "sys rmdir %s" % path),
        (2, "sys unlink %s" % path),
        (1, "sys rename %s %s" % (path, path_of(rng))),
        (1, "sys list %s %d 512" % (path, READ_AT)),
        (1, "sys chdir %s" % path),
        (2, "sys fork"),
        (1, "sys wait"),
        (1, "sys kill %d" % (1000 * rng.randint(1, clients) + rng.randint(1, 3))),
        (4, "sys migrate %d 2" % (NAMES_AT + 4 * rng.randrange(clients))),
        (1, "sys print %d %d" % (READ_AT, rng.choice([1, 4]))),
        (1, rng.choice(["sys getpid", "sys getppid", "sys tick", "sys host %d 8" % READ_AT])),
    ]
    return rng.choices([line for _, line in calls], [weight for weight, _ in calls])[0]


def program(rng, name, clients):
    lines = ['text %d "%s"' % (16 * place, path) for place, path in enumerate(PATHS)]
    lines += ['text %d "c%d"' % (NAMES_AT + 4 * at, at + 1) for at in range(clients)]
    lines += ['text %d "%s"' % (DATA_AT, DATA)]
    for number in range(rng.randint(4, 14)):
        call = one_call(rng, clients)
        if rng.random() < 0.15:
            lines += ["set r7 %d" % rng.randint(2, 5), "again%d:" % number, call, "set r6 1", "sub r7 r6", "jne r7 r5 again%d" % number]
        else:
            lines.append(call)
    lines.append("sys exit %d" % rng.randrange(4))
    return "[[program]]\nname = \"%s\"\ntext = '''\n%s\n'''\n" % (name, "\n".join(lines))


SERVES = """[[program]]
name = "serves"
text = '''
text 0 "/echo"
set r7 %d
sys pd_make 0 5
next:
sys pd_get 0 512 1024
set r3 2
jeq r1 r3 written
sys pd_put 0 512 2 0
jmp answered
written:
sys pd_put 0 0 0 0
answered:
set r3 1
sub r7 r3
jne r7 r5 next
sys exit 0
'''
[[program]]
name = "asks"
text = '''
text 0 "/echo"
text 8 "ping"
text 12 "c2"
sys open 0 5 3
sys write 0 8 4
sys migrate 12 2
sys read 0 64 2
sys print 64 2
sys exit 0
'''
"""


def cluster(rng):
    clients, servers, programs = rng.randint(1, 4), rng.randint(1, 2), rng.randint(1, 3)
    version = rng.choice([1, 1, 2])
    parts = ["version = %d\nbudget = %d\ncache = %d\n" % (version, rng.choice([300, 3000, 20000]), rng.choice([0, 8, 64]))]
    parts += ['[[kernel]]\nname = "c%d"\n' % (number + 1) for number in range(clients)]
    parts += ['[[kernel]]\nname = "s1"\nserves = ["/"]\n', '[[kernel]]\nname = "s2"\nserves = ["/e"]\n'][:servers]
    parts += [program(rng, "p%d" % number, clients) for number in range(programs)]
    has_device = clients >= 2 and rng.random() < 0.3
    parts += [SERVES % rng.randint(1, 6)] if has_device else []
    starts = ["p%d" % rng.randrange(programs) for _ in range(rng.randint(1, 4))] + ["serves", "asks", "asks"] * has_device
    parts += ['[[start]]\nhost = "c%d"\nprogram = "%s"\n' % (rng.randint(1, clients), name) for name in starts]
    parts += ['[[file]]\npath = "%s"\ntext = "0123456789"\nrepeat = %d\n' % (path, rng.choice([1, 500, 2000])) for path in ["/a", "/d/x"] if rng.random() < 0.6]
    names = ["*"] + ["c%d" % (number + 1) for number in range(clients)] + ["s1"]
    for _ in range(rng.choice([0, 0, 1, 2, 3])):
        parts.append('[[link]]\nfrom = "%s"\nto = "%s"\nfirst = %d\nevery = %d\ncount = %d\nfate = "%s"\n' % (
            rng.choice(names), rng.choice(names), rng.randint(1, 9), rng.randint(1, 4), rng.choice([1, 3, 9, 40]), rng.choice(["lost", "lost", "twice", "late"])))
    for _ in range(rng.choice([0, 0, 1, 2])):
        parts.append('[[evict]]\nhost = "c%d"\nafter = %d\n' % (rng.randint(1, clients), rng.randint(1, 12)))
    return "".join(parts).encode()


def call(words, given):
    try:
        ran = subprocess.run(words, input=given, capture_output=True, timeout=300)
        return ran.returncode, ran.stdout
    except subprocess.TimeoutExpired:
        return "no answer", b""


def verdict(program_path, judge, file, words):
    """The status of the last run of the file, whether all is as it has to be, and what was said last. With a judge the last run is that of `trace`."""
    status, said = call([program_path, *words], file)
    if status not in (0, 4, 5) or not judge:
        return status, status in (0, 4, 5), said
    status, trace = call([program_path, "trace"], file)
    lines = trace.splitlines(keepends=True)
    if lines and lines[-1] in (b"budget\n", b"stalled\n"):
        lines.pop()
    _, told = call(judge, file + b"\n=====\n" + b"".join(lines))
    return status, status in (0, 4, 5) and told == b"holds\n", told


def main(program_path, count, seed, *judge):
    statuses, wrong = Counter(), 0
    for number in range(int(count)):
        rng = random.Random("%s %d" % (seed, number))
        file = cluster(rng)
        words = ["run"] if number % 2 else ["run", "--seed", str(number)]
        status, is_well, said = verdict(program_path, list(judge), file, words)
        statuses[status] += 1
        if not is_well:
            wrong += 1
            with open("random-%s-%d.toml" % (seed, number), "wb") as kept:
                kept.write(file)
            print("random-%s-%d.toml: status %s, %r" % (seed, number, status, said[:80]), flush=True)
    print("%s runs: %s; %d wrong" % (count, ", ".join("%d of status %s" % (statuses[it], it) for it in sorted(statuses, key=str)), wrong))
    return 1 if wrong else 0


if __name__ == "__main__":
    sys.exit(main(*sys.argv[1:]))
