#!/usr/bin/env -S python3 -B
"""Scripts of the built program that make and change WAVE files, on the real system: the whole streams, the status, and every
byte of the files afterwards. What is wanted comes from the layout of a WAVE file as the format's document gives it, and from
a list of frames that is edited beside the program. Some scripts have a file pinned by --auto. Needs Python 3. What a full
disk leaves is skipped where no file system can be mounted; what a folder without permission does is skipped for a user who may
write everywhere."""
import os
import random
import select
import struct
import subprocess
import tempfile
import time

from lib.head import SECONDS, Cases, first_difference, start

program = start()
cases = Cases("scripts")
BITS = {"pcm_u8": 8, "pcm_16_le": 16, "pcm_24_le": 24, "pcm_32_le": 32}
skipped = 0


def coded(bits, numbers):
    if bits == 8:
        return bytes(x + 128 for x in numbers)
    return b"".join((x % (1 << bits)).to_bytes(bits // 8, "little") for x in numbers)


def head(codec, channels, rate, size):
    """The head of a WAVE file of so many data bytes, without further chunks."""
    bits = BITS[codec]
    align = channels * bits // 8
    return struct.pack("<4sI4s4sIHHIIHH4sI", b"RIFF", 36 + size + size % 2, b"WAVE", b"fmt ", 16, 1, channels, rate, min(rate * align, 2**32 - 1), align, bits, b"data", size)


def made(codec, channels, rate, frames):
    data = coded(BITS[codec], [x for frame in frames for x in frame])
    return head(codec, channels, rate, len(data)) + data + b"\0" * (len(data) % 2)


def files():
    found = {}
    for name in sorted(os.listdir(".")):
        if os.path.isfile(name):
            with open(name, "rb") as file:
                found[name] = file.read()
    return found


def wrong_files(after):
    """What is wrong with the files of the current folder."""
    left, wrong = files(), []
    for file in sorted(set(left) | set(after)):
        if file not in left or file not in after:
            wrong.append(f"{file} is {'missing' if file in after else 'there'}")
        else:
            wrong += first_difference(file, left[file], after[file])
    return wrong


def run(name, lines, replies, status, after, before=None, words=("script",), err=b"", **options):
    """One run over these files in a new folder; the faults of its streams, its status and the files."""
    with tempfile.TemporaryDirectory() as folder:
        at = os.getcwd()
        os.chdir(folder)
        for file, data in (before or {}).items():
            with open(file, "wb") as out:
                out.write(data)
        script = "".join(f"{line}\n" for line in lines).encode()
        done = subprocess.run([program, *words], input=script, capture_output=True, timeout=60, **options)
        wrong = first_difference("standard output", done.stdout, "".join(f"{line}\n" for line in replies).encode())
        wrong += first_difference("standard error", done.stderr, err)
        if done.returncode != status:
            wrong.append(f"status {done.returncode} for {status}")
        wrong += wrong_files(after)
        os.chdir(at)
    cases.case(name, wrong)


def line_of(codec, channels, rate, frames):
    return f"ok {frames} {channels} {rate} wave {codec}"


# every linear codec, with the ends of its range and one channel or more; what is made is read again
for codec, bits in BITS.items():
    for channels in (1, 2, 5):
        low, high = -(1 << (bits - 1)), (1 << (bits - 1)) - 1
        numbers = [low, high, 0, 1, -1, 7, -7][:7]
        frames = [[numbers[(i + c) % 7] for c in range(channels)] for i in range(3)]
        flat = " ".join(str(x) for frame in frames for x in frame)
        shown = [" ".join(map(str, frame)) for frame in frames]
        run(f"{codec} of {channels} channels", [f"create wave {codec} {channels} 8000 o.wav", f"write {flat}", "info", "close", "open r o.wav", "read 9"],
            [line_of(codec, channels, 8000, 0), "ok 3", line_of(codec, channels, 8000, 3), "ok 3", line_of(codec, channels, 8000, 3), "ok 3", *shown], 0,
            {"o.wav": made(codec, channels, 8000, frames)})
        run(f"{codec} of {channels} channels, out of range", [f"create wave {codec} {channels} 8000 o.wav", f"write {' '.join(['0'] * channels)}"]
            + ([f"write {' '.join([str(high + 1)] + ['0'] * (channels - 1))}", f"write {' '.join(['0'] * (channels - 1) + [str(low - 1)])}"] if bits < 32 else ["write 2147483648"] * 2)
            + [f"write {' '.join(['0'] * (channels + 1))}" if channels > 1 else "write", "info", "close"],
            [line_of(codec, channels, 8000, 0), "ok 1"] + (["error 23 SampleRange"] * 2 if bits < 32 else ["error 40 BadCommand"] * 2)
            + ["error 22 PartFrame" if channels > 1 else "error 40 BadCommand", line_of(codec, channels, 8000, 1), "ok 1"], 1,
            {"o.wav": made(codec, channels, 8000, [[0] * channels])})

# the laws of G.711 keep of each number the one that its byte stands for
for codec, tag, data, kept, zeros, zero in (("ulaw", 7, b"\xff\x7f\xce\x4e\x80\0", ["0 0", "988 -988", "32124 -32124"], b"\xff\xff", "0 0"),
                                           ("alaw", 6, b"\xd5\x55\xfa\x7a\xaa\x2a", ["8 -8", "1008 -1008", "32256 -32256"], b"\xd5\xd5", "8 8")):
    start = struct.pack("<4sI4s4sIHHIIHHH4sII4sI", b"RIFF", 50 + len(data), b"WAVE", b"fmt ", 18, tag, 2, 8000, 16000, 2, 8, 0, b"fact", 4, 3, b"data", len(data))
    run(f"{codec}, what is kept", [f"create wave {codec} 2 8000 o.wav", "write 0 -1 1000 -1000 32767 -32768", "write 32768 0", "write 0 -32769", "close", "open u o.wav", "read 9", "seek w 1", "write 0 0",
        "seek r 0", "read 9", "close"],
        [line_of(codec, 2, 8000, 0), "ok 3", "error 23 SampleRange", "error 23 SampleRange", "ok 3", line_of(codec, 2, 8000, 3), "ok 3", *kept, "ok 1", "ok 1", "ok 0", "ok 3", kept[0], zero, kept[2], "ok 3"], 1,
        {"o.wav": start + data[:2] + zeros + data[4:]})

# ADPCM: frames are given from front to back, and whole blocks of them are told of until the file is closed
for codec, frames, start in (("ima", 505, struct.pack("<4sI4s4sIHHIIHHHH4sII4sI", b"RIFF", 564, b"WAVE", b"fmt ", 20, 0x11, 1, 8000, 4055, 256, 4, 2, 505, b"fact", 4, 506, b"data", 512)),
                             ("ms", 500, struct.pack("<4sI4s4sIHHIIHHHHH14h4sII4sI", b"RIFF", 594, b"WAVE", b"fmt ", 50, 2, 1, 8000, 4096, 256, 4, 32, 500, 7,
                                                     256, 0, 512, -256, 0, 0, 192, 64, 240, 0, 460, -208, 392, -232, b"fact", 4, 506, b"data", 512))):
    zeros = bytes(512) if codec == "ima" else (bytes(1) + struct.pack("<h", 16) + bytes(253)) * 2
    run(f"{codec}, which is made", [f"create wave {codec} 1 8000 o.wav", f"write {' '.join(['0'] * 500)}", "write 0 0 0 0 0 0", "write 32768", "info", "update", "auto on", "seek w 0", "seek rw 0",
        "seek r 0", "read 1", "truncate 0", "trim", "set cue 1", "close"],
        [line_of(codec, 1, 8000, 0), "ok 500", "ok 6", "error 23 SampleRange", line_of(codec, 1, 8000, 506), f"ok {frames}", f"ok {frames}", "error 33 AdpcmSeek", "error 33 AdpcmSeek",
         "error 44 WrongMode", "error 44 WrongMode", "error 20 AdpcmUpdate", "error 20 AdpcmUpdate", "error 28 FramesWritten", "ok 506"], 1, {"o.wav": start + zeros})

two = [[1, -1], [2, -2]]
old = {"a.wav": made("pcm_16_le", 2, 44100, two), "other": b"stays"}
opened = line_of("pcm_16_le", 2, 44100, 2)
run("refusals, and nothing changes", ["write 1", "update", "close", "open u none.wav", "create wave pcm_16_be 1 1 n.wav", "create wave pcm_16_le 0 1 n.wav", "create wave pcm_16_le 257 1 n.wav",
    "create wave pcm_16_le 1 0 n.wav", "create au pcm_u8 1 1 n.wav", "create wave ima 3 1 n.wav", "open r a.wav", "open u a.wav", "create wave pcm_u8 1 1 n.wav", "create wave ima 1 1 n.wav",
    "write 1 1", "truncate 1", "trim", "update", "auto on", "auto off", "seek w 0", "seek rw 2", "seek r 3", "set cue 1", "close"],
    ["error 42 NotOpen"] * 3 + ["error 56 MissingFile", "error 18 BadPair", "error 11 BadChannels", "error 11 BadChannels", "error 12 BadRate", "error 18 BadPair", "error 18 BadPair", opened]
    + ["error 43 AlreadyOpen"] * 3 + ["error 44 WrongMode"] * 7 + ["ok 2", "error 24 SeekRange", "error 44 WrongMode", "ok 2"], 1, old, old)
run("a file that is made is not read", ["create wave pcm_u8 1 8000 n.wav", "write 1", "read 1", "seek r 0", "seek rw 0", "write 2", "truncate 9", "truncate 1"],
    [line_of("pcm_u8", 1, 8000, 0), "ok 1", "error 44 WrongMode", "error 44 WrongMode", "ok 0", "ok 1", "error 24 SeekRange", "ok 1"], 1, {"n.wav": made("pcm_u8", 1, 8000, [[2]])})
run("made over a file that is there", ["create wave pcm_16_le 2 44100 a.wav"], [line_of("pcm_16_le", 2, 44100, 0)], 0, {**old, "a.wav": made("pcm_16_le", 2, 44100, [])}, old)
run("a script that ends with a file open", ["open u a.wav", "seek w 2", "write 3 -3"], [opened, "ok 2", "ok 1"], 0, {**old, "a.wav": made("pcm_16_le", 2, 44100, two + [[3, -3]])}, old)

# a chunk behind the data: frames are written over, and the end does not move
tail = {"t.wav": made("pcm_16_le", 1, 8000, [[1], [2]])[:4] + struct.pack("<I", 36 + 4 + 12) + made("pcm_16_le", 1, 8000, [[1], [2]])[8:] + b"note\4\0\0\0text"}
run("a file that goes on behind its data", ["open u t.wav", "write 5", "seek w 1", "write 6 7", "truncate 1", "trim", "truncate 2", "auto on", "write 8"],
    [line_of("pcm_16_le", 1, 8000, 2), "ok 1", "ok 1", "error 25 TrailingData", "error 25 TrailingData", "error 25 TrailingData", "ok 2", "ok 2", "ok 1"], 1,
    {"t.wav": tail["t.wav"].replace(struct.pack("<hh", 1, 2), struct.pack("<hh", 5, 8))}, tail)
# a wrong size of the whole, and a byte behind the data
loose = {"l.wav": made("pcm_u8", 1, 8000, [[1], [2], [3]])[:4] + b"\0\0\0\0" + made("pcm_u8", 1, 8000, [[1], [2], [3]])[8:] + b"x"}
run("a file is healed as it is closed", ["open u l.wav"], [line_of("pcm_u8", 1, 8000, 3)], 0, {"l.wav": made("pcm_u8", 1, 8000, [[1], [2], [3]]) + b"x"}, loose)
run("what stands behind the sound is cut off", ["open u l.wav", "trim"], [line_of("pcm_u8", 1, 8000, 3), "ok 3"], 0, {"l.wav": made("pcm_u8", 1, 8000, [[1], [2], [3]])}, loose)


def edited(seed, codec, channels):
    """A session of random edits, beside a list of frames. Wants the replies and the file."""
    dice = random.Random(seed)
    bits = BITS[codec]
    frames, read_at, write_at = [], 0, 0
    lines, replies = [f"create wave {codec} {channels} 48000 o.wav", "close", "open u o.wav"], [line_of(codec, channels, 48000, 0), "ok 0", line_of(codec, channels, 48000, 0)]
    for _ in range(120):
        command = dice.choice(["write"] * 4 + ["seek r", "seek w", "seek rw", "read", "read", "truncate", "trim", "update", "auto on", "auto off", "info"])
        line, reply = command, None
        if command == "write":
            count = dice.randint(1, 40)
            new = [[dice.randint(-(1 << (bits - 1)), (1 << (bits - 1)) - 1) for _ in range(channels)] for _ in range(count)]
            line += " " + " ".join(str(x) for frame in new for x in frame)
            frames[write_at:write_at + count] = new
            write_at += count
            reply = [f"ok {count}"]
        elif command.startswith("seek"):
            to = dice.randint(0, len(frames))
            line += f" {to}"
            read_at, write_at = to if "r" in command[5:] else read_at, to if "w" in command[5:] else write_at
            reply = [f"ok {to}"]
        elif command == "read":
            count = dice.randint(0, 30)
            line += f" {count}"
            got = frames[read_at:read_at + count]
            read_at += len(got)
            reply = [f"ok {len(got)}"] + [" ".join(map(str, frame)) for frame in got]
        elif command == "truncate":
            to = dice.randint(len(frames) // 2, len(frames))
            line += f" {to}"
            del frames[to:]
            read_at, write_at = min(read_at, to), min(write_at, to)
            reply = [f"ok {to}"]
        elif command == "info":
            reply = [line_of(codec, channels, 48000, len(frames))]
        lines.append(line)
        replies += reply or [f"ok {len(frames)}"]
    run(f"random edits {seed}", lines, replies, 0, {"o.wav": made(codec, channels, 48000, frames)})


for seed in range(12):
    edited(seed, list(BITS)[seed % 4], 1 + seed % 3)


class Taps:
    """A tap of each kind: the frames that it saw since it was on, None while it waits, and no entry once it is gone."""

    def __init__(self, least, most):
        self.value = {"peak": lambda xs: max(map(abs, xs), default=0), "clips": lambda xs: sum(x in (least, most) for x in xs), "energy": lambda xs: sum(x * x for x in xs)}
        self.seen = dict.fromkeys(self.value)

    def start(self, kind):
        if self.seen.get(kind) is not None:
            return "error 46 TapOn"
        if kind not in self.seen:
            return "error 45 NoSuchTap"
        self.seen[kind] = []
        return "ok"

    def stop(self, kind):
        if self.seen.get(kind) is None:
            return "error 45 NoSuchTap"
        saw = self.seen.pop(kind)
        return f"ok {kind} {len(saw)} {self.value[kind]([x for frame in saw for x in frame])}"

    def feed(self, frames):
        self.seen = {kind: None if saw is None else saw + frames for kind, saw in self.seen.items()}

    def rest(self):
        self.seen = dict.fromkeys(self.seen)


def metered(seed, codec, channels):
    """Frames are read and taps begin and end, in two sittings on one file; what each saw is computed beside it."""
    dice = random.Random(seed)
    least, most = -(1 << (BITS[codec] - 1)), (1 << (BITS[codec] - 1)) - 1
    frames = [[dice.choice([least, most, 0, dice.randint(least, most)]) for _ in range(channels)] for _ in range(60)]
    taps, lines, replies = Taps(least, most), [], []
    for _ in range(2):
        lines += ["tap peak", "open r o.wav"]
        replies += ["error 42 NotOpen", line_of(codec, channels, 48000, 60)]
        place = 0
        for _ in range(40):
            command, kind = dice.choice(["tap", "tap", "untap", "read", "read", "read", "seek r"]), dice.choice(list(taps.value))
            if command == "read":
                count = dice.randint(0, 12)
                got = frames[place:place + count]
                place += len(got)
                taps.feed(got)
                line, reply = f"read {count}", [f"ok {len(got)}"] + [" ".join(map(str, frame)) for frame in got]
            elif command == "seek r":
                to = dice.randint(0, 64)
                line, reply = f"seek r {to}", [f"ok {to}" if to <= 60 else "error 24 SeekRange"]
                place = to if to <= 60 else place
            else:
                line, reply = f"{command} {kind}", [taps.start(kind) if command == "tap" else taps.stop(kind)]
            lines.append(line)
            replies += reply
        lines.append("close")
        replies.append("ok 60")
        taps.rest()
    file = {"o.wav": made(codec, channels, 48000, frames)}
    run(f"taps {seed}", lines, replies, 1, file, file)


for seed in range(12):
    metered(seed, list(BITS)[seed % 4], 1 + seed % 3)


# ---- a file that stays open: its opening and `auto on` are answered before the first line

PINNED = ("script", "--auto", "a.wav")
small = {"a.wav": made("pcm_u8", 1, 8000, [[1], [2]]), "b.wav": made("pcm_u8", 1, 8000, [[7]]), "other": b"stays"}
begun = [line_of("pcm_u8", 1, 8000, 2), "ok 2"]
run("pinned: a frame is written over", ["write 5", "close"], [*begun, "ok 1", "error 65 Pinned"], 1, {**small, "a.wav": made("pcm_u8", 1, 8000, [[5], [2]])}, small, PINNED)
run("pinned: no line", [], begun, 0, small, small, PINNED)
run("pinned: what is refused", ["open r b.wav", "open u a.wav", "open u none.wav", "create wave pcm_u8 1 8000 a.wav", "create wave pcm_u8 1 8000 n.wav", "close", "auto on", "auto off", "seek w 3",
    "truncate 3", "write 128", "write", "set cue 1", "# a remark", "", "info"],
    [*begun, *["error 65 Pinned"] * 8, *["error 24 SeekRange"] * 2, "error 23 SampleRange", "error 40 BadCommand", "error 44 WrongMode", begun[0]], 1, small, small, PINNED)
run("pinned: every edit", ["read 9", "seek w 2", "write 3 4 5", "seek r 1", "read 9", "truncate 3", "trim", "update", "write -1", "info"],
    [*begun, "ok 2", "1", "2", "ok 2", "ok 3", "ok 1", "ok 4", "2", "3", "4", "5", "ok 3", "ok 3", "ok 3", "ok 1", line_of("pcm_u8", 1, 8000, 4)], 0,
    {**small, "a.wav": made("pcm_u8", 1, 8000, [[1], [2], [3], [-1]])}, small, PINNED)
run("pinned: a file that is missing", ["write 5"], ["error 56 MissingFile"], 1, small, small, ("script", "--auto", "none.wav"))
run("pinned: a file that is no sound", ["write 5"], ["error 1 NotSound"], 1, small, small, ("script", "--auto", "other"))
run("pinned: a file that goes on behind its data", ["write 5 6", "write 7", "seek w 1", "write 8 9", "truncate 1", "trim"],
    [line_of("pcm_16_le", 1, 8000, 2), "ok 2", "ok 2", "error 25 TrailingData", "ok 1", *["error 25 TrailingData"] * 3], 1,
    {"t.wav": tail["t.wav"].replace(struct.pack("<hh", 1, 2), struct.pack("<hh", 5, 6))}, tail, ("script", "--auto", "t.wav"))
run("pinned: a file is healed", [], [line_of("pcm_u8", 1, 8000, 3), "ok 3"], 0, {"l.wav": made("pcm_u8", 1, 8000, [[1], [2], [3]]) + b"x"}, loose, ("script", "--auto", "l.wav"))
for words in (["--auto"], ["--auto", "a.wav", "b.wav"], ["--auto", "--auto", "a.wav"], ["--auto", "-a.wav"], ["--auto", ""], ["a.wav", "--auto"], ["--auto", "on", "a.wav"], ["--auto=a.wav"], ["a.wav"]):
    run(f"pinned: bad words {words}", ["write 5"], [], 2, small, small, ["script", *words], b"snd: bad words\n")


def lines_from(talk, count):
    """The next lines that a run says, so many of them; fewer where they do not come in time."""
    got, end = b"", time.monotonic() + min(SECONDS, 10)
    while got.count(b"\n") < count and select.select([talk.stdout], [], [], max(end - time.monotonic(), 0))[0]:
        part = os.read(talk.stdout.fileno(), 1 << 16)
        got += part
        if not part:
            break
    return got.decode("latin-1").splitlines()


def turns(name, before, words, first, talk, status):
    """A run whose replies are awaited line by line: those that come before any line, and then each with the files that it leaves.
    Its input stays open until it ended, or, where there are lines, until the last is answered."""
    with tempfile.TemporaryDirectory() as folder:
        at = os.getcwd()
        os.chdir(folder)
        for file, data in before.items():
            with open(file, "wb") as out:
                out.write(data)
        session = subprocess.Popen([program, *words], stdin=subprocess.PIPE, stdout=subprocess.PIPE, stderr=subprocess.PIPE)
        wrong = first_difference("before the first line", lines_from(session, len(first)), first) + wrong_files(before)
        try:
            for line, replies, after in talk:
                os.write(session.stdin.fileno(), f"{line}\n".encode())
                wrong += first_difference(f"after {line!r}", lines_from(session, len(replies)), replies) + wrong_files({**before, **after})
            if talk:
                session.stdin.close()
            ended = session.wait(timeout=min(SECONDS, 10))
            wrong += [f"status {ended} for {status}"] * (ended != status)
            wrong += first_difference("the rest", session.stdout.read() + session.stderr.read(), b"")
        except (OSError, subprocess.TimeoutExpired) as error:
            wrong.append(f"it ended early or not at all: {error}")
        finally:
            session.kill()
            session.wait()
        os.chdir(at)
    cases.case(name, wrong)


def mono(*frames):
    return {"a.wav": made("pcm_u8", 1, 8000, [[x] for x in frames])}


turns("pinned: each reply before the next line, and its file", small, PINNED, begun, [("write 5", ["ok 1"], mono(5, 2)), ("read 1", ["ok 1", "5"], mono(5, 2)), ("seek w 2", ["ok 2"], mono(5, 2)),
    ("write 6 7 8", ["ok 3"], mono(5, 2, 6, 7, 8)), ("close", ["error 65 Pinned"], mono(5, 2, 6, 7, 8)), ("truncate 3", ["ok 3"], mono(5, 2, 6)), ("write 9", ["ok 1"], mono(5, 2, 6, 9))], 1)
# the size of the data stands in two sectors; the input stays open, and nothing is taken of it
filled = made("pcm_16_le", 1, 8000, [[1], [2]])
straddling = {**small, "s.wav": filled[:4] + struct.pack("<I", 36 + 4 + 470) + filled[8:36] + b"fill" + struct.pack("<I", 462) + b"f" * 462 + filled[36:]}
turns("pinned: a size in two sectors", straddling, ("script", "--auto", "s.wav"), [line_of("pcm_16_le", 1, 8000, 2), "error 27 Straddle"], [], 1)
turns("pinned: a file that is missing, and an input that stays open", small, ("script", "--auto", "none.wav"), ["error 56 MissingFile"], [], 1)
turns("pinned: a file that is no sound, and an input that stays open", small, ("script", "--auto", "other"), ["error 1 NotSound"], [], 1)
turns("pinned: a folder, and an input that stays open", small, ("script", "--auto", "/"), [], [], 3)


def replaced(line):
    """The faults of a script that changes a file in whose place another one has come: that one stays, and so does the file, elsewhere."""
    with tempfile.TemporaryDirectory() as folder:
        at = os.getcwd()
        os.chdir(folder)
        before = {"a.wav": made("pcm_u8", 1, 8000, [[1], [2]]), "b.wav": made("pcm_u8", 1, 8000, [[7]])}
        for file, data in before.items():
            with open(file, "wb") as out:
                out.write(data)
        session = subprocess.Popen([program, "script"], stdin=subprocess.PIPE, stdout=subprocess.PIPE, stderr=subprocess.PIPE)
        session.stdin.write(b"open u a.wav\n")
        session.stdin.flush()
        wrong = first_difference("the reply", lines_from(session, 1), begun[:1])
        os.rename("a.wav", "was.wav")
        os.rename("b.wav", "a.wav")
        out, err = session.communicate(f"{line}\n".encode(), timeout=SECONDS)
        wrong += first_difference("the rest", out + err, b"") + [f"status {session.returncode} for 3"] * (session.returncode != 3)
        wrong += wrong_files({"a.wav": before["b.wav"], "was.wav": before["a.wav"]})
        os.chdir(at)
    cases.case(f"a file that was replaced: {line}", wrong)


for line in ("write 5", "truncate 0", "trim"):
    replaced(line)


# ---- names and devices that fail

def failing(name, prepare, lines, replies, after=None, stdout=None):
    """A run whose status is 3, in a folder that was prepared."""
    with tempfile.TemporaryDirectory() as folder:
        at = os.getcwd()
        os.chdir(folder)
        with open("a.wav", "wb") as out:
            out.write(old["a.wav"])
        prepare()
        done = subprocess.run([program, "script"], input="".join(f"{line}\n" for line in lines).encode(), stdout=stdout or subprocess.PIPE, stderr=subprocess.PIPE, timeout=60)
        wrong = [] if stdout else first_difference("standard output", done.stdout, "".join(f"{line}\n" for line in replies).encode())
        wrong += first_difference("standard error", done.stderr, b"")
        if done.returncode != 3:
            wrong.append(f"status {done.returncode} for 3")
        with open("a.wav", "rb") as file:
            wrong += first_difference("a.wav", file.read(), after or old["a.wav"])
        os.chdir(at)
    cases.case(name, wrong)


failing("a folder is not made a file", lambda: os.mkdir("f"), ["create wave pcm_u8 1 1 f"], [])
failing("a folder is not opened", lambda: os.mkdir("f"), ["open u f"], [])
failing("a pipe is not made a file", lambda: os.mkfifo("p"), ["create wave pcm_u8 1 1 p"], [])
failing("a name in a folder that is not there", lambda: None, ["create wave pcm_u8 1 1 no/n.wav"], [])
failing("a device is not opened", lambda: None, ["open r a.wav", "close", "open u /dev/null"], [opened, "ok 2"])
with open("/dev/full", "wb") as full:
    failing("a reply that does not get out leaves its command carried out", lambda: None, ["open u a.wav"], [], old["a.wav"], full)
if os.geteuid() == 0:
    print("scripts: skipped: a file and a folder without permission, since this user may write everywhere")
    skipped += 2
else:
    failing("a file that may not be written", lambda: os.chmod("a.wav", 0o444), ["open u a.wav", "write 5 5"], [opened])
    failing("a folder that may not be written", lambda: (os.mkdir("f"), os.chmod("f", 0o555)), ["create wave pcm_u8 1 1 f/n.wav"], [])

# a disk that is full: what was acknowledged while updates were automatic is in the file
folder = tempfile.mkdtemp()
if subprocess.run(["mount", "-t", "tmpfs", "-o", "size=1m", "tmpfs", folder], capture_output=True).returncode == 0:
    try:
        row = "write " + " ".join(str(i % 100) for i in range(1000))
        script = "".join(f"{line}\n" for line in ["create wave pcm_16_le 1 8000 " + folder + "/o.wav", "auto on"] + [row] * 2000).encode()
        done = subprocess.run([program, "script"], input=script, capture_output=True, timeout=60)
        acknowledged = 1000 * (done.stdout.count(b"ok 1000\n"))
        again = subprocess.run([program, "info", folder + "/o.wav"], capture_output=True, timeout=60)
        frames = int(next((line.split()[1] for line in again.stdout.decode().splitlines() if line.startswith("frames")), -1))
        wrong = [] if done.returncode == 3 else [f"status {done.returncode} for 3"]
        if acknowledged < 400000 or frames not in (acknowledged, acknowledged + 1000):
            wrong.append(f"{acknowledged} frames were acknowledged, and the file says {frames}")
        with open(folder + "/o.wav", "rb") as file:
            data = file.read()[44:44 + 2 * acknowledged]
        wrong += first_difference("the frames", data, struct.pack("<1000h", *(i % 100 for i in range(1000))) * (acknowledged // 1000))
        cases.case("a full disk", wrong)
    finally:
        subprocess.run(["umount", folder])
else:
    print("scripts: skipped: a full disk, since no file system can be mounted")
    skipped += 1
os.rmdir(folder)
cases.end(24 + 4 + 2 + 2 + 3 + 12 + 12 + 8 + 9 + 5 + 3 + 6 + 3 - skipped)
