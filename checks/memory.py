#!/usr/bin/env -S python3 -B
"""Refused memory, allocation by allocation: each run of a table is made once more for each k, with a library preloaded that refuses
the allocation number k, and once more with one that refuses it and all behind it, for k from 1 until none is refused. Each ends
with status 4, or with all that a run with ample memory gives. With status 4 what was printed is the front of that. A tool then
leaves every file but those that it makes as it was. A script leaves all files as the lines before the one that wanted memory
leave them, with a close behind these, but for the file that a `create` without a reply names; the replies of these lines are
out. What a number of lines leaves is what the program does with these alone. Needs Python 3; skipped where gcc is missing."""
import os
import struct
import subprocess
import sys

from lib import blocks, kinds
from lib.head import SECONDS, TOP, Cases, ended, finished, first_difference, has, start
from lib.kinds import chunk

if not has("memory", "gcc"):
    sys.exit(0)
program = start()
with open(program, "rb") as file:
    if file.read(2) == b"#!":
        print("memory: skipped: the program to try is a script, which would be refused memory, too")
        sys.exit(0)
cases = Cases("memory")
LIBRARY, TOLD = os.path.abspath("refuse.so"), os.path.abspath("refused")
subprocess.run(["gcc", "-O2", "-Wall", "-shared", "-fPIC", "-fno-builtin", f"{TOP}/checks/lib/refuse.c", "-o", LIBRARY], check=True)
os.mkdir("run")
os.chdir("run")
RATE = 8000


def contents():
    found = {}
    for name in os.listdir("."):
        with open(name, "rb") as file:
            found[name] = file.read()
    return found


def lay(files):
    """Leaves these files in the folder, and no others."""
    for name in os.listdir("."):
        os.remove(name)
    for name, data in files.items():
        with open(name, "wb") as file:
            file.write(data)


def refused(words, script, call, goes_on):
    """A run that is refused memory at this call; whether it made that call."""
    if os.path.exists(TOLD):
        os.remove(TOLD)
    more = {"LD_PRELOAD": LIBRARY, "REFUSED_CALL": str(call), "REFUSED_TOLD": TOLD, **({"REFUSED_FROM": "1"} if goes_on else {})}
    done = finished(["env", *(f"{name}={value}" for name, value in more.items()), program, *words], script)
    return done, os.path.exists(TOLD)


class Ample:
    """A run with ample memory: its streams, its status and the files behind it. Without words it is none."""

    def __init__(self, files, words, script=b""):
        lay(files)
        self.done = finished([program, *words], script) if words else subprocess.CompletedProcess([], 0, b"", b"")
        self.files = contents()

    def same(self, done, files):
        """Whether another run gave just that."""
        return (done.stdout, done.stderr, done.returncode) == (self.done.stdout, self.done.stderr, self.done.returncode) and files == self.files


def wrong_streams(done, ample):
    """The faults of the status and the streams of a run that was refused memory, and that is not as if it had not been."""
    wrong = [f"status {done.returncode} for 4"] * (done.returncode != 4)
    wrong += first_difference("standard output", done.stdout, ample.done.stdout[:len(done.stdout)])
    return wrong + first_difference("standard error", done.stderr, ample.done.stderr[:len(done.stderr)])


def wrong_files(files, wanted, but):
    names = sorted({*files, *wanted} - {*but})
    return [f"{name} is other than it was" for name in names if files.get(name) != wanted.get(name)]


def each_refused(what, files, words, script, wrong_left):
    """The runs of one row. `wrong_left` has the faults of the files that are left where the status is 4."""
    ample = Ample(files, words, script)
    if ample.done is None or ample.done.returncode not in (0, 1):
        cases.case(what, [f"with ample memory it ends as {ample.done}"])
        return
    for goes_on in (False, True):
        wrong, call, as_if_not = [], 0, 0
        while len(wrong) < 6:
            call += 1
            lay(files)
            done, was_refused = refused(words, script, call, goes_on)
            if done is None:
                wrong.append(f"call {call}: no end within {SECONDS} seconds")
                break
            left = contents()
            if not was_refused:
                wrong += [f"with no call refused: {it}" for it in ended(done, ample.done.stdout, ample.done.stderr, ample.done.returncode) + wrong_files(left, ample.files, ())]
                break
            if ample.same(done, left):
                as_if_not += 1
                continue
            wrong += [f"call {call}: {it}" for it in wrong_streams(done, ample) + wrong_left(done, left)]
        counts.append((call - 1, as_if_not))
        wrong += ["it takes no memory"] * (call == 1)
        cases.case(f"{what}{', and all behind it' if goes_on else ''}", wrong)


def tool(files, words, *made):
    """A tool that makes these files."""
    each_refused(" ".join(words), files, words, b"", lambda done, left: wrong_files(left, files, made))


def script(what, files, lines, pinned=None):
    """A script of lines, each of which is a command. Where a file is pinned, two commands are put before them."""
    words = ["script", "--auto", pinned] if pinned else ["script"]
    named = {line.split()[-1] for line in lines if line.startswith("create ")}
    # what the first commands alone print and leave, with a close behind them
    before = [Ample(files, []), Ample(files, ["script"], text_of([f"open u {pinned}"]))] if pinned else []
    fronts = before + [Ample(files, words, text_of(lines[:many])) for many in range(len(lines) + 1)]
    commands = [f"open u {pinned}", "auto on", *lines] if pinned else lines

    def wrong_left(done, left):
        # the lines before the one that wanted memory: as many as have a reply, or one less where this one has, too
        possible = [at for at, front in enumerate(fronts) if done.stdout == front.done.stdout]
        wanted = [it for at in possible for it in (at, at - 1) if it >= 0]
        if not wanted:
            return [f"it ends in the midst of a reply: {done.stdout[-40:]!r}"]
        # (what a create that wanted memory leaves is not said)
        but = named if any(it == 0 or commands[it:it + 1] and commands[it].startswith("create ") for it in wanted) else ()
        faults = [wrong_files(left, fronts[it].files, but) for it in wanted]
        return [] if [] in faults else faults[0]

    each_refused(what, files, words, text_of(lines), wrong_left)


def text_of(lines):
    return "".join(f"{line}\n" for line in lines).encode()


# how many allocations each row refused, and after how many of them the run went on as if there had been memory
counts = []
LIST = chunk(b"LIST", b"INFOINAM" + struct.pack("<I", 2) + b"A\0")
BEXT = chunk(b"bext", b"wood".ljust(602, b"\0"))
samples = struct.pack("<176400h", *(i * 7919 % 65536 - 32768 for i in range(176400)))
long = kinds.riff("wave", "pcm_16_le", 2, 44100, samples, BEXT + LIST + chunk(b"FLLR", bytes(20)))
mono = kinds.whole_file("wave", "pcm_16_le", 1, RATE, range(-300, 300))
other = kinds.whole_file("au", "pcm_24_be", 1, RATE, range(0, 70000, 70))

# ---- a file with a broadcast extension and texts is described, and becomes RF64 and WAVE again
tool({"r.wav": long}, ["info", "r.wav"])
tool({"r.wav": long}, ["convert", "r.wav", "r.rf64"], "r.rf64")
lay({"r.wav": long})
finished([program, "convert", "r.wav", "r.rf64"])
between = contents().get("r.rf64", b"")
tool({"r.rf64": between}, ["convert", "r.rf64", "s.wav"], "s.wav")

# ---- a file with chunks, texts, cue points and a broadcast extension is made
script("a script that sets chunks of each kind", {}, [
    "create wave pcm_16_le 1 8000 j.wav", "set string title A", "set chunk abcd 0102", "set cue 5", "set bext originator X", "get chunk abcd", "get chunks",
    "get cues", "set chunk data 00", "write 1", "set chunk abcd 03", "close"])

# ---- one with a reservation is made, and another becomes RF64
script("a script that reserves", {}, ["create wave pcm_16_le 1 8000 r.wav", "reserve", "set string title A", "reserve", "write 1 2", "close", "open u r.wav", "auto on", "promote", "seek w 2", "write 3"])
room = mono[:4] + struct.pack("<I", len(mono) + 28) + b"WAVE" + chunk(b"JUNK", bytes(28)) + mono[12:]
script("a pinned file that is promoted", {"r.wav": room}, ["promote", "promote", "seek w 600", "write 1 2 3"], "r.wav")

# ---- the other tools, other codecs, and scripts on a file that is there
tool({"a.wav": mono, "b.au": other}, ["info", "a.wav", "no.wav", "b.au"])
tool({"a.wav": mono}, ["convert", "-ima-adpcm", "a.wav", "x.wav"], "x.wav")
tool({"r.wav": long}, ["convert", "-rack=gain:1/2,map:1.0,fade:100,invert", "r.wav", "x.wav"], "x.wav")
tool({"a.wav": mono, "b.au": other}, ["concat", "a.wav", "b.au", "x.wav"], "x.wav")
tool({"a.wav": mono, "b.au": other}, ["interleave", "a.wav", "b.au", "-o", "x.wav"], "x.wav")
tool({"r.wav": long}, ["metadata-set", "--str-title", "Dawn", "--bext-originator", "snd", "r.wav", "x.wav"], "x.wav")
tool({}, ["gen", "7", "5000", "x.wav"], "x.wav")
tool({"a.raw": samples[:90_001]}, ["import", "raw", "pcm_24_be", "2", "8000", "a.raw", "x.wav"], "x.wav")
tool({"a.vox": samples[:20_000]}, ["import", "vox", "8000", "a.vox", "x.wav"], "x.wav")
tool({"r.wav": long}, ["export", "pvf", "r.wav", "x.pvf"], "x.pvf")
tool({"m.wav": blocks.whole_file("wave", "ima", 1, RATE, range(-3000, 3000))}, ["export", "vox", "m.wav", "x.vox"], "x.vox")
tool({"d.wav": bytes(12) + long[12:]}, ["salvage", "d.wav", "x.wav"], "x.wav")
tool({"r.wav": long}, ["deinterleave", "r.wav", "x.wav", "y.wav"], "x.wav", "y.wav")
script("a script that reads and taps", {"a.wav": mono}, ["open r a.wav", "tap peak", "tap energy", "read 600", "untap peak", "get strings", "untap energy", "close", "open r no.wav"])
script("a script that changes a file", {"a.wav": mono}, ["open u a.wav", "auto on", "seek w 600", "write 1 2 3", "truncate 10", "read 3", "update", "close"])
script("a script on a pinned file", {"a.wav": mono}, ["seek w 600", "write 1 2 3", "close", "truncate 10", "read 3"], "a.wav")
script("a script that makes a file of ADPCM", {}, ["create wave ms 1 8000 m.wav", "set string title A", "write " + " ".join(map(str, range(600))), "auto on", "write 1 2", "close"])
refusals, went_on = (sum(it) for it in zip(*counts))
cases.end(2 * 23, f"; {refusals} allocations refused, after {went_on} of which the run went on as with memory")
