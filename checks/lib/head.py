"""The head of each check: the program to try and a new folder to try it in, a count of cases, the sums of a folder's files, and one
run of the program with its whole streams. SND_PROGRAM names a program to try in place of the one that is proved and built;
SND_SECONDS is how long a run may take."""
import atexit
import contextlib
import hashlib
import os
import shutil
import signal
import subprocess
import sys
import tempfile

TOP = os.path.dirname(os.path.dirname(os.path.dirname(os.path.realpath(__file__))))
SECONDS = int(os.environ.get("SND_SECONDS", "60"))


def built(name):
    """The path of a program of the repository, proved and built where it is missing or older than its sources."""
    found = subprocess.run([f"{TOP}/tools/build", name], stdin=subprocess.DEVNULL, stdout=subprocess.PIPE)
    if found.returncode:
        sys.exit(1)
    return found.stdout.decode().removesuffix("\n")


def start(name="snd"):
    """Goes to a new folder, which is removed at the end, and gives the path of the program to try."""
    named = os.environ.get("SND_PROGRAM") if name == "snd" else None
    program = os.path.abspath(named) if named else built(name)
    folder = os.path.realpath(tempfile.mkdtemp())
    atexit.register(shutil.rmtree, folder, True)
    os.chdir(folder)
    return program


def has(check, tool, what=""):
    """Whether a tool is there; else it is said what is skipped."""
    if shutil.which(tool):
        return True
    print(f"{check}: skipped{f' {what}' if what else ''}: {tool} is missing")
    return False


def sums(folder="."):
    """The name and the checksum of each file below a folder, the current one where none is named; of what is no file, its name and
    what it is."""
    found = {}
    for at, folders, files in os.walk(folder):
        for name in folders:
            found[os.path.join(at, name)] = "folder"
        for name in files:
            path = os.path.join(at, name)
            if os.path.islink(path):
                found[path] = f"a link to {os.readlink(path)}"
            elif os.path.isfile(path):
                with open(path, "rb") as file:
                    found[path] = hashlib.sha256(file.read()).hexdigest()
            else:
                found[path] = "no file"
    return found


def changed(before, after, but=()):
    """What became of files between two calls of `sums`, but for those whose paths are named."""
    others = sorted({*before, *after} - {*but})
    return [f"{name} was changed, made or removed" for name in others if before.get(name) != after.get(name)]


class Cases:
    """Counts the cases that passed and failed. The end wants exactly as many as are pinned."""

    def __init__(self, name):
        self.name, self.passed, self.failed = name, 0, 0

    def case(self, name, wrong):
        """Counts a case, whose faults are the lines of `wrong`."""
        if wrong:
            self.failed += 1
            print(f"FAILED {self.name}: {name}")
            for line in wrong[:6]:
                print(f"    {line[:400]}")
        else:
            self.passed += 1

    def end(self, pinned, more=""):
        """Prints the counts, with what more is to be said in the same line, and ends."""
        if self.passed + self.failed != pinned:
            print(f"FAILED {self.name}: {self.passed + self.failed} cases were tried, and {pinned} are to be")
            self.failed += 1
        print(f"{self.name}: {self.passed} passed, {self.failed} failed{more}")
        sys.exit(self.failed != 0)


def first_difference(what, got, want):
    """One line on where two texts differ, or none where they are the same."""
    if got == want:
        return []
    at = next((i for i, (a, b) in enumerate(zip(got, want)) if a != b), min(len(got), len(want)))
    begin = max(at - 20, 0)
    return [f"{what}: {len(got)} bytes for {len(want)}, other from byte {at} on: {got[begin:at + 60]!r} for {want[begin:at + 60]!r}"]


def ended(done, out, err, status):
    """The faults of a run: that it has not ended in time, or its two streams and its status."""
    if done is None:
        return [f"no end within {SECONDS} seconds"]
    wrong = first_difference("standard output", done.stdout, out) + first_difference("standard error", done.stderr, err)
    return wrong + [f"status {done.returncode} for {status}"] * (done.returncode != status)


def finished(words, given=None):
    """A command that has ended, with its streams, and what it began with it; None where it does not end in time."""
    how = {"stdin": subprocess.DEVNULL} if given is None else {"stdin": subprocess.PIPE}
    begun = subprocess.Popen(words, **how, stdout=subprocess.PIPE, stderr=subprocess.PIPE, start_new_session=True)
    try:
        out, err = begun.communicate(given, timeout=SECONDS)
    except subprocess.TimeoutExpired:
        return None
    finally:
        with contextlib.suppress(ProcessLookupError):
            os.killpg(begun.pid, signal.SIGKILL)
        begun.wait()
    return subprocess.CompletedProcess(words, begun.returncode, out, err)


def run(program, words, script, out, err, status, changes=()):
    """Runs the program once. The faults: its streams, its status, and what became of the files of the current folder, but for those
    whose paths are in `changes`."""
    before = sums()
    return ended(finished([program, *words], script), out, err, status) + changed(before, sums(), changes)


@contextlib.contextmanager
def running(*words):
    """A program that runs meanwhile, once the system has loaded it."""
    other = subprocess.Popen(words, stdin=subprocess.DEVNULL)
    try:
        while os.path.realpath(f"/proc/{other.pid}/exe") != os.path.realpath(words[0]):
            if other.poll() is not None:
                raise OSError(f"{words[0]} does not run")
        yield other
    finally:
        other.kill()
        other.wait()
