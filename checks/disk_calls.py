#!/usr/bin/env -S python3 -B
"""What a disk over a real file asks of the system: every call but those that only look or read, in the order that was
asked, each sync on the right file. A file that is missing is made, and its folder synced; one that is there is opened for
reading alone, and again when it changes. Needs Python 3 and the program disk_calls, which tools/build builds where the gate
has not. Skipped where the Debian package strace is missing."""
import os
import re
import shutil
import sys
import tempfile

from lib.head import Cases, changed, ended, finished, first_difference, has, running, start, sums

if not has("disk_calls", "strace"):
    sys.exit(0)
built = start("disk_calls")
program = os.path.abspath("disk_calls")
shutil.copyfile(built, program)
os.chmod(program, 0o755)
cases = Cases("disk_calls")
LEFT = b"first\0\0\0\0\0"
NOBODY = ["setpriv", "--reuid=65534", "--regid=65534", "--clear-groups"] if os.getuid() == 0 else []
# calls that look, read, or serve the program's memory
PLAIN = r"(exit_group|brk|munmap|madvise|stat|lstat|newfstatat|statx|fstat|read|pread64|lseek)\(|mmap\(.*MAP_ANONYMOUS|\+\+\+"


def calls_on(name):
    """The calls from the first that names the file on, without what differs from system to system; and the faults of the run."""
    with tempfile.NamedTemporaryFile("r", encoding="utf-8", errors="replace") as file:
        done = finished(["strace", "-f", "-o", file.name, program, name])
        calls = [re.sub(r"^\d+ +", "", it) for it in file.read().splitlines()]
    calls = [it for it in calls if not re.match(PLAIN, it) and not it.startswith("execve")]
    first = next((at for at, it in enumerate(calls) if f'"{name}"' in it), len(calls))
    calls = [re.sub(r'^openat\(AT_FDCWD, ("[^"]*"), ([A-Z_|]*)[^)]*\) +', r"open \1 \2 ", it) for it in calls[first:]]
    calls = [re.sub(r"\) += ", ") = ", re.sub(r"\|O_(CLOEXEC|LARGEFILE|NOCTTY)", "", it)) for it in calls]
    return calls, ended(done, b"", b"", 0)


def changes(file):
    """The changes that the program makes, on a descriptor."""
    return [f'pwrite64({file}, "first", 5, 0) = 5', f"fsync({file}) = 0", f'pwrite64({file}, "second", 6, 600) = 6', f"fsync({file}) = 0",
            f"ftruncate({file}, 10) = 0", f"fsync({file}) = 0", f"close({file}) = 0"]


def made(name, folder):
    return [f'open "{name}" O_RDWR|O_CREAT|O_EXCL = 3', f'open "{folder}" O_RDONLY = 4', "fsync(4) = 0", "close(4) = 0", *changes(3)]


def opened(name):
    return [f'open "{name}" O_RDONLY = 3', f'open "{name}" O_RDWR = 4', "close(3) = 0", *changes(4)]


def holds(what, name, content):
    with open(name, "rb") as file:
        cases.case(f"the bytes of {what}", first_difference(name, file.read(), content))


def put(name, content):
    with open(name, "wb") as file:
        file.write(content)


def traced(what, name, wanted):
    """The calls on a file, its bytes then, and that no other file changes."""
    before = sums()
    calls, wrong = calls_on(name)
    cases.case(f"the calls on {what}", wrong + first_difference("the calls", calls, wanted) + changed(before, sums(), {f"./{name}"}))
    holds(what, name, LEFT)


def refused(what, name, words=()):
    """A file that may not be written: it is opened, and the first call that changes it fails."""
    before = sums()
    cases.case(what, ended(finished([*words, program, name]), b"", b"", 3))
    cases.case(f"the bytes of {what}", changed(before, sums()))


os.mkdir("sub")
os.mkdir("run")
for name, folder in (("a.bin", "."), ("sub/b.bin", "sub")):
    traced(f"{name}, which is made", name, made(name, folder))
put("there.bin", b"there")
traced("a file that is there", "there.bin", opened("there.bin"))
shutil.copy(shutil.which("sleep"), "run/sleep")
with running("run/sleep", "600"):
    refused("a running program", "run/sleep")
skipped = 0
if NOBODY and not shutil.which("setpriv"):
    print("disk_calls: skipped a file that may only be read: setpriv is missing")
    skipped += 2
else:
    put("readonly.bin", b"there")
    os.chmod("readonly.bin", 0o444)
    os.chmod(".", 0o755)
    refused("a file that may only be read", "readonly.bin", NOBODY)
# closed streams give no file their number
cases.case("all streams closed", ended(finished(["bash", "-c", 'exec "$0" closed.bin <&- >&- 2>&-', program]), b"", b"", 0))
holds("a file with all streams closed", "closed.bin", LEFT)
cases.end(12 - skipped, f", {skipped} skipped" if skipped else "")
