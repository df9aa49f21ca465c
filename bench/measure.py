"""What the benches share: commands measured side by side, and one table of what was found.

A command is a list of words, with the file that it reads, the file that it writes to, and one that it makes. Each runs once to
warm up; then all of a group run in turn, as many times each, but one that takes more than ten seconds once, and the least and
the middle of the times are taken. Where a host's speed changes from minute to minute, a better figure is the middle of what a
command takes by what another one took in the same turn."""
import os
import statistics
import subprocess
import sys
import time

TRIES = int(os.environ.get("BENCH_TRIES", "9"))

# the seconds from which on a command runs once alone
SLOW = 10


def run(words, given="/dev/null", to="/dev/null", made=None):
    """Runs a command and gives its seconds. The file that it makes is removed before. A status that is not 0 ends all."""
    if made and os.path.exists(made):
        os.remove(made)
    with open(given, "rb") as source, open(to, "wb") as sink:
        start = time.perf_counter()
        ended = subprocess.run(words, stdin=source, stdout=sink, stderr=subprocess.DEVNULL)
        wall = time.perf_counter() - start
    if ended.returncode:
        sys.exit(f"{' '.join(words)} ended with status {ended.returncode}")
    return wall


def peak(words, given="/dev/null", to="/dev/null", made=None):
    """The peak memory of a command in KB, as a small program counts it: a child of this one would begin with this one's."""
    run(["/usr/bin/time", "-o", "peak.txt", "-f", "%M", *words], given, to, made)
    with open("peak.txt") as file:
        return int(file.read().split()[-1])


def turns(commands, leave=True):
    """Runs commands by name in turn, each (words, given, to, made), and gives the seconds of the runs of each. What one makes is
    removed after each run where it is not left."""
    found = {name: [] for name in commands}
    for turn in range(TRIES):
        for name, command in commands.items():
            if turn == 0 or min(found[name]) < SLOW:
                found[name].append(run(*command))
                if not leave:
                    os.remove(command[3])
    return found


def times(runs):
    """The least and the middle of seconds, in milliseconds."""
    return 1000 * min(runs), 1000 * statistics.median(runs)


def part(runs, others):
    """The middle of what runs take by what others took in the same turn."""
    return statistics.median(it / other for it, other in zip(runs, others))


def side_by_side(commands):
    """Measures commands by name, each (words, given, to, made): the least and the middle of the milliseconds, and the peak memory."""
    peaks = {name: peak(*command) for name, command in commands.items()}
    return {name: (*times(runs), peaks[name]) for name, runs in turns(commands).items()}


def same(one, other):
    """Whether two files have the same bytes."""
    return subprocess.run(["cmp", "-s", one, other]).returncode == 0


def table(heads, rows):
    """Prints rows of texts under their heads, the first column to the left."""
    rows = [[str(it) for it in row] for row in rows]
    widths = [max(len(it) for it in column) for column in zip(heads, *rows)]
    for row in [heads, *rows]:
        print("  ".join(it.ljust(width) if at == 0 else it.rjust(width) for at, (it, width) in enumerate(zip(row, widths))).rstrip(), flush=True)
