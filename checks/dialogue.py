#!/usr/bin/env -S python3 -B
"""Whole sessions with the built program, a line at a time: each reply is awaited and compared before the next line is sent, and
nothing else may come before it. A line is sent in two parts too. What is wanted is read from the example files by Python's
own module for WAVE files. Needs Python 3."""
import os
import select
import shutil
import struct
import subprocess
import time
import wave

from lib.head import SECONDS, TOP, Cases, changed, start, sums

program = start()
for name in ("bell.wav", "chord.wav"):
    shutil.copyfile(f"{TOP}/examples/{name}", name)
cases = Cases("dialogue")
# how long a reply may take, and how long it is watched that nothing comes
REPLY, QUIET = min(SECONDS, 10), 0.03


class Session:
    def __init__(self):
        self.got = b""
        self.run = subprocess.Popen([program, "script"], stdin=subprocess.PIPE, stdout=subprocess.PIPE, stderr=subprocess.PIPE)

    def more(self, seconds):
        """Takes what comes next, and says whether something came."""
        if not select.select([self.run.stdout], [], [], seconds)[0]:
            return False
        part = os.read(self.run.stdout.fileno(), 1 << 16)
        self.got += part
        return bool(part)

    def send(self, text):
        os.write(self.run.stdin.fileno(), text)

    def reply(self, count):
        """The next lines, so many of them."""
        end = time.monotonic() + REPLY
        while self.got.count(b"\n") < count and time.monotonic() < end and self.more(end - time.monotonic()):
            pass
        lines = self.got.split(b"\n", count)
        taken, self.got = lines[:count], lines[-1] if len(lines) > count else b""
        return [line.decode("latin-1") for line in taken]


def converse(name, turns, status):
    """A session of turns, each a line and the lines of its reply."""
    before, session, wrong = sums(), Session(), []
    try:
        for line, replies in turns:
            half = len(line) // 2
            for part in (line[:half], line[half:] + "\n") if half % 2 else (line + "\n",):
                if session.more(QUIET / 10):
                    wrong.append(f"before {line!r} was sent there came {session.got[:80]!r}")
                session.send(part.encode())
            got = session.reply(len(replies))
            if got != replies:
                at = next((i for i, (a, b) in enumerate(zip(got, replies)) if a != b), min(len(got), len(replies)))
                wrong.append(f"after {line!r}: {len(got)} lines for {len(replies)}, other from line {at} on: {got[at:at + 2]} for {replies[at:at + 2]}")
            if session.got or session.more(QUIET):
                wrong.append(f"more than the reply to {line!r} came: {session.got[:80]!r}")
            if wrong:
                break
        session.run.stdin.close()
        rest, said = session.run.stdout.read(), session.run.stderr.read()
        wrong += [f"at the end there came {rest[:80]!r}"] * bool(rest and not wrong)
        wrong += [f"standard error has {said[:80]!r}"] * bool(said)
        ended = session.run.wait(timeout=REPLY)
        wrong += [f"status {ended} for {status}"] * (ended != status and not wrong)
    except (OSError, subprocess.TimeoutExpired) as error:
        wrong.append(f"it ended early or not at all: {error}")
    finally:
        session.run.kill()
        session.run.wait()
    cases.case(name, wrong + changed(before, sums()))


def frames_of(name):
    with wave.open(name) as file:
        channels, count = file.getnchannels(), file.getnframes()
        numbers = struct.unpack(f"<{channels * count}h", file.readframes(count))
    return [" ".join(map(str, numbers[i:i + channels])) for i in range(0, len(numbers), channels)]


bell, chord = frames_of("bell.wav"), frames_of("chord.wav")
head, chord_head = "ok 4000 1 8000 wave pcm_16_le", "ok 5512 2 22050 wave pcm_16_le"


def read(frames, at, count):
    part = frames[at:at + count]
    return (f"read {count}", [f"ok {len(part)}", *part])


whole = [("open r bell.wav", [head]), *(read(bell, at, 700) for at in range(0, 4001, 700)), read(bell, 4000, 1024), ("close", ["ok 4000"])]
converse("all frames of a file", whole, 0)
converse("places, and another file", [
    ("open r chord.wav", [chord_head]), ("info", [chord_head]), ("seek r 5510", ["ok 5510"]), read(chord, 5510, 5), ("seek rw 7", ["ok 7"]),
    read(chord, 7, 1), read(chord, 8, 3), ("seek r 5512", ["ok 5512"]), read(chord, 5512, 1), ("seek r 0", ["ok 0"]), read(chord, 0, 1024),
    ("close", ["ok 5512"]), ("open r bell.wav", [head]), read(bell, 0, 2), ("info", [head]), ("close", ["ok 4000"])], 0)
converse("refused lines between", [
    ("read 1", ["error 42 NotOpen"]), ("open r missing.wav", ["error 56 MissingFile"]), ("", []), ("open r bell.wav", [head]), ("# a remark", []),
    ("open r chord.wav", ["error 43 AlreadyOpen"]), read(bell, 0, 1), ("seek r 4001", ["error 24 SeekRange"]), read(bell, 1, 2), ("nonsense", ["error 40 BadCommand"]),
    ("read x", ["error 40 BadCommand"]), ("x" * 4097, ["error 41 LineTooLong"]), read(bell, 3, 1), ("close", ["ok 4000"]), ("close", ["error 42 NotOpen"])], 1)
converse("an end with an open file", [("open r bell.wav", [head]), read(bell, 0, 3)], 0)
cases.end(4)
