#!/usr/bin/env -S python3 -B
"""The built program against the system: names that are no regular files, files that may not be read or written, files that
run or are leased, streams that are closed or full. No case may wait, and none may change a file. Needs Python 3 and bash; what
strace sees is skipped where it is missing."""
import fcntl
import os
import re
import select
import shutil
import signal
import subprocess
import tempfile

from lib.head import SECONDS, TOP, Cases, changed, ended, finished, first_difference, has, running, start, sums

program = start()
cases = Cases("command_line")
skipped = 0
BELL = b"""name bell.wav
kind wave
codec pcm_16_le
channels 1
rate 8000
frames 4000
duration 00:00:00.500
"""
HEAD = b"ok 4000 1 8000 wave pcm_16_le\n"
NOT_SOUND = b"snd: opens: error 1 NotSound\n"
BAD_WORDS = b"snd: bad words\n"
NOBODY = ["setpriv", "--reuid=65534", "--regid=65534", "--clear-groups"]


def wrong_run(words, status, out, err):
    """The faults of a command, which may change no file."""
    before = sums()
    return ended(finished(words), out, err, status) + changed(before, sums())


def expect(name, status, out, err, *words):
    cases.case(name, wrong_run([program, *words], status, out, err))


def shell(name, status, out, err, text):
    """A line of bash, in which SND is the program."""
    cases.case(name, wrong_run(["bash", "-c", text.replace("SND", f"'{program}'")], status, out, err))


def described(name):
    return BELL.replace(b"bell.wav", name.encode())


def put(name, content):
    with open(name, "wb") as file:
        file.write(content)


shutil.copyfile(f"{TOP}/examples/bell.wav", "bell.wav")
os.mkdir("sub")
for name in ("sub/b.wav", "readonly.wav"):
    shutil.copyfile("bell.wav", name)
os.chmod("readonly.wav", 0o444)
os.mkfifo("pipe")
os.symlink("bell.wav", "link.wav")
os.symlink("nowhere", "dangling.wav")
for what, name in (("a file", "bell.wav"), ("a name with a slash", "sub/b.wav"), ("a link", "link.wav"), ("a file that may only be read", "readonly.wav")):
    expect(what, 0, described(name), b"", "info", name)
for what, name in (("a missing file", "no.wav"), ("a link to nowhere", "dangling.wav"), ("a path through a file", "bell.wav/x")):
    expect(what, 1, b"", f"snd: {name}: error 56 MissingFile\n".encode(), "info", name)
for what, name in (("a folder", "sub"), ("a pipe", "pipe"), ("a device", "/dev/zero")):
    expect(what, 3, b"", b"", "info", name)
expect("no words", 2, b"", BAD_WORDS)
expect("a word that is no text", 2, b"", BAD_WORDS, "info", b"\xff.wav")
shell("a full standard output", 3, b"", b"", "SND info bell.wav >/dev/full")
shell("a closed standard output", 3, b"", b"", "SND info bell.wav >&-")
shell("a full standard error", 3, b"", b"", "SND info no.wav 2>/dev/full")
shell("a script", 0, HEAD + b"ok 4000\n", b"", r"printf 'open r bell.wav\nclose\n' | SND script")
put("script", b"read 1\n")
shell("a script from a file", 1, b"error 42 NotOpen\n", b"", "SND script <script")
# (the folder is a fault, which ends the script)
shell("a script of a folder", 3, HEAD + b"ok 4000\n", b"", r"printf 'open r bell.wav\nclose\nopen r sub\ninfo\n' | SND script")
shell("an endless script", 2, b"", b"snd: script too long\n", "yes '' | SND script")
shell("a script that cannot be read", 3, b"", b"", "SND script <.")
shell("a script with a full output", 3, b"", b"", "echo info | SND script >/dev/full")


def answered_at_once():
    """The faults of a script whose line is answered while the next is not there, and which then ends."""
    before = sums()
    snd = subprocess.Popen([program, "script"], stdin=subprocess.PIPE, stdout=subprocess.PIPE, stderr=subprocess.PIPE)
    try:
        snd.stdin.write(b"open r bell.wav\n")
        snd.stdin.flush()
        got = snd.stdout.readline() if select.select([snd.stdout], [], [], 5)[0] else b""
        rest, said = snd.communicate(timeout=SECONDS)
    except (OSError, subprocess.TimeoutExpired) as error:
        return [str(error)]
    finally:
        snd.kill()
        snd.wait()
    wrong = first_difference("the reply", got, HEAD) + first_difference("what comes behind it", rest, b"") + first_difference("standard error", said, b"")
    return wrong + [f"status {snd.returncode} for 0"] * (snd.returncode != 0) + changed(before, sums())


cases.case("a reply before the next line", answered_at_once())

# ---- a stream that is closed is a fault where it is used, and no file comes in its place
put("opens", b"open r bell.wav\nread 1\nclose\n")
shell("info, input closed", 0, BELL, b"", "SND info bell.wav <&-")
shell("info, output closed", 3, b"", b"", "SND info bell.wav >&-")
shell("info, errors closed", 0, BELL, b"", "SND info bell.wav 2>&-")
shell("info, all closed", 3, b"", b"", "SND info bell.wav <&- >&- 2>&-")
shell("a refusal, input closed", 1, b"", NOT_SOUND, "SND info opens <&-")
shell("a refusal, output closed", 1, b"", NOT_SOUND, "SND info opens >&-")
shell("a refusal, errors closed", 3, b"", b"", "SND info opens 2>&-")
shell("a refusal, all closed", 3, b"", b"", "SND info opens <&- >&- 2>&-")
shell("a script, input closed", 3, b"", b"", "SND script <&-")
shell("a script, output closed", 3, b"", b"", "SND script <opens >&-")
with open("bell.wav", "rb") as file:
    first = int.from_bytes(file.read()[44:46], "little", signed=True)
shell("a script, errors closed", 0, HEAD + f"ok 1\n{first}\nok 4000\n".encode(), b"", "SND script <opens 2>&-")
shell("a script, output and errors closed", 3, b"", b"", "SND script <opens >&- 2>&-")
shell("a script, input and output closed", 3, b"", b"", "SND script <&- >&-")
shell("a script, all closed", 3, b"", b"", "SND script <&- >&- 2>&-")

# ---- a file is only read: one that runs can be looked at, and whoever lent it for reading alone is not asked to end that
os.mkdir("run")
shutil.copy(shutil.which("sleep"), "run/sleep")
with running("run/sleep", "600"):
    try:
        open("run/sleep", "ab").close()
        may_write = ["a running program may be written here"]
    except OSError:
        may_write = []
    cases.case("a running program", may_write + wrong_run([program, "info", "run/sleep"], 1, b"", b"snd: run/sleep: error 1 NotSound\n"))
asked = []
signal.signal(signal.SIGIO, lambda *_: asked.append(1))
with open("bell.wav", "rb") as file:
    fcntl.fcntl(file, fcntl.F_SETLEASE, fcntl.F_RDLCK)
    wrong = wrong_run([program, "info", "bell.wav"], 0, BELL, b"")
    # (whoever reads a leased file again, as the sums do, asks for nothing)
    wrong += ["the holder of a lease was asked to end it"] * bool(asked)
    fcntl.fcntl(file, fcntl.F_SETLEASE, fcntl.F_UNLCK)
cases.case("a file with a read lease", wrong)


def changes_of(trace):
    """The calls of a trace that change anything but the two streams."""
    calls = r"creat|p?write|sendfile|splice|vmsplice|copy_file_range|f?truncate|fallocate|rename|link|symlink|unlink|mkdir|rmdir|mknod"
    calls += r"|f?chmod|[fl]?chown|utime|futimes|[fl]?setxattr|[fl]?removexattr|f?sync|fdatasync|ioctl"
    found = [it for it in trace if re.search(r"O_WRONLY|O_RDWR|O_CREAT|O_TRUNC|O_APPEND|PROT_WRITE, MAP_SHARED", it)]
    return found + [it for it in trace if re.match(rf"\d+ +({calls})[a-z0-9]*\(", it) and not re.match(r"\d+ +write\([12],", it)]


with open(program, "rb") as file:
    is_script = file.read(2) == b"#!"
if is_script:
    print("command_line: skipped what strace sees of info: the program to try is a script, whose own calls it would see")
    skipped += 2
elif has("command_line", "strace", "what strace sees of info"):
    with tempfile.NamedTemporaryFile("r", encoding="utf-8", errors="replace") as file:
        cases.case("info, as strace sees it", wrong_run(["strace", "-f", "-o", file.name, program, "info", "bell.wav"], 0, BELL, b""))
        trace = file.read().splitlines()
    # opened once, for reading alone
    opened = [it for line in trace for it in re.findall(r'"bell.wav", (O_[A-Z]+)', line)]
    cases.case("what strace sees of info", [f"bell.wav is opened as {opened}"] * (opened != ["O_RDONLY"]) + changes_of(trace))
else:
    skipped += 2
what = "a file without permission to read"
if os.getuid() == 0 and shutil.which("setpriv"):
    os.chmod(".", 0o755)
    os.chmod("sub/b.wav", 0)
    shutil.copyfile(program, "snd-program")
    os.chmod("snd-program", 0o755)
    cases.case(what, wrong_run([*NOBODY, "./snd-program", "info", "sub/b.wav"], 3, b"", b""))
elif os.getuid() == 0:
    print(f"command_line: skipped {what}: setpriv is missing")
    skipped += 1
else:
    # (its sum cannot be taken)
    os.chmod("sub/b.wav", 0)
    cases.case(what, ended(finished([program, "info", "sub/b.wav"]), b"", b"", 3))
    os.chmod("sub/b.wav", 0o644)
with open("bell.wav", "rb") as one, open(f"{TOP}/examples/bell.wav", "rb") as other:
    cases.case("the file is as it was", first_difference("bell.wav", one.read(), other.read()))
cases.end(42 - skipped, f", {skipped} skipped" if skipped else "")
