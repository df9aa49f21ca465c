#!/usr/bin/env -S python3 -B
"""What a power cut leaves of a file of ADPCM that a script makes with automatic updates. Scripts of random writes with fixed seeds
run on real files under strace, in WAVE and Wave64, in both codecs, of one channel and two, and with blocks of each size. From
`auto on` on each image that a cut may leave at each moment (lib/crash_images.py, random mixes with a fixed seed) is opened and read by
the program: it must have its parameters, and exactly the frames of the whole blocks that were acknowledged, or those of the
command under way, which for `close` are all frames. What each is to be is decoded of the blocks of an own coder (lib/blocks.py). The
same traces with calls left out or in another order must leave images that are not safe. Needs Python 3, and the Debian package
strace, without which it is skipped."""
import os
import random
import subprocess
import sys

from lib import blocks
from lib.crash_images import moments, read_by_program, traced
from lib.head import Cases, first_difference, has, start

if not has("power_cut_adpcm", "strace"):
    sys.exit(0)
program = start()
cases = Cases("power_cut_adpcm")
RATES, TIMES, LINES, LEAST = (8000, 16000, 44100), 6, 24, 5000
SHAPES = [(kind, codec, channels, rate) for kind in ("wave", "w64") for codec in ("ima", "ms") for channels in (1, 2) for rate in RATES]
# how long the field is that decides the count: `fact`, the identifier and the size of the data
FIELD = {"wave": 12, "w64": 32}


class Run:
    """A script that makes a file: the replies that are wanted, the frames that count before each of them, and the calls."""

    def __init__(self, seed):
        self.kind, self.codec, self.channels, self.rate = SHAPES[seed % len(SHAPES)]
        self.dice = random.Random(f"power cut of ADPCM {seed}")
        self.start = len(blocks.whole_file(self.kind, self.codec, self.channels, self.rate, []))
        self.size = blocks.align(self.channels, self.rate)
        self.given, self.kept = [], {}
        lines = [f"create {self.kind} {self.codec} {self.channels} {self.rate} a.snd", "auto on"]
        self.replies, self.states = [f"ok 0 {self.channels} {self.rate} {self.kind} {self.codec}", "ok 0"], [0, 0, 0]
        for _ in range(LINES):
            line, answer = self.next_line()
            lines.append(line)
            self.replies.append(answer)
            self.states.append(self.acknowledged())
        lines.append("close")
        self.replies.append(f"ok {len(self.given) // self.channels}")
        self.states.append(len(self.given) // self.channels)
        self.replies = [f"{it}\n".encode() for it in self.replies]
        data = blocks.coded(self.codec, self.channels, self.size, self.given)
        numbers = blocks.numbers_of(self.codec, self.channels, self.size, data, self.states[-1])
        self.frames = [" ".join(map(str, numbers[i:i + self.channels])) for i in range(0, len(numbers), self.channels)]
        if os.path.exists("a.snd"):
            os.remove("a.snd")
        self.done, self.events = traced(program, ["script"], lines, b"a.snd", True)
        with open("a.snd", "rb") as file:
            self.last = file.read()

    def acknowledged(self):
        """The frames of whole blocks."""
        each = blocks.per_block(self.codec, self.channels, self.size)
        return len(self.given) // self.channels // each * each

    def next_line(self):
        what = self.dice.choice(["write"] * 8 + ["update", "auto", "info", "refused"])
        if what == "write":
            count = self.dice.choice([1, self.dice.randint(1, 40), 560 // self.channels, 560 // self.channels]) * self.channels
            swing = self.dice.choice([40, 3000, 32767])
            new = [self.dice.randint(-swing, swing) for _ in range(count)]
            self.given += new
            return "write " + " ".join(map(str, new)), f"ok {count // self.channels}"
        if what == "info":
            return "info", f"ok {len(self.given) // self.channels} {self.channels} {self.rate} {self.kind} {self.codec}"
        if what == "refused":
            return self.dice.choice([("seek w 0", "error 33 AdpcmSeek"), ("truncate 0", "error 20 AdpcmUpdate"), ("trim", "error 20 AdpcmUpdate"),
                                     ("write " + "32768 " * self.channels, "error 23 SampleRange")])
        return {"update": "update", "auto": "auto on"}[what], f"ok {self.acknowledged()}"

    def wrong_end(self, held):
        """What is wrong with the run but for its images: what it said, its calls, and the file at its end."""
        wrong = first_difference("standard output", self.done.stdout, b"".join(self.replies)) + first_difference("standard error", self.done.stderr, b"")
        wrong += [f"a call that is not known: {it[1]}" for it in self.events if it[0] == "unknown"]
        wrong += [f"{len(held) - 1} writes or cuts are not synced at the end"] * (len(held) > 1)
        wrong += first_difference("the file, and what its calls make of it", self.last, held[-1])
        return wrong + first_difference("the file at the end", self.last, blocks.whole_file(self.kind, self.codec, self.channels, self.rate, self.given))

    def unsafe(self, out, answer):
        """Why an image is not safe when so many replies are out, or None."""
        opened, frames, closed = answer
        old, new = self.states[out], self.states[min(out + 1, len(self.states) - 1)]
        if opened != f"ok {len(frames)} {self.channels} {self.rate} {self.kind} {self.codec}" or closed != f"ok {len(frames)}":
            return f"it says {opened!r} and {closed!r}, and has {len(frames)} frames"
        if len(frames) not in (old, new):
            return f"it has {len(frames)} frames, for {old} or {new}"
        return None if frames == self.frames[:len(frames)] else "its frames are not those of its blocks"

    def judge(self, found):
        """How many images there are from `auto on` on, and the faults of those that are not safe."""
        found = [(at, out, each) for at, (out, each) in enumerate(found) if out >= 2]
        distinct = list({image: None for _, _, each in found for image in sorted(each)})
        answers = read_by_program(program, distinct, len(self.frames) + 1)
        faults = []
        for at, out, each in found:
            for image in sorted(each):
                why = self.unsafe(out, answers[image])
                faults += [f"after call {at}, with {out} replies out: {why}"] if why else []
        for i in range(len(distinct)):
            os.remove(f"i{i}")
        return sum(len(each) for _, _, each in found), faults


# ---- traces that are wrong

def is_count(run, event):
    size = FIELD[run.kind]
    return event[0] == "put" and event[1] == run.start - size and len(event[2]) == size


def count_first(run, events):
    """The count is written before the sync of its blocks."""
    for i in range(1, len(events) - 1):
        if events[i - 1][0] == "put" and events[i][0] == "sync" and is_count(run, events[i + 1]):
            events[i], events[i + 1] = events[i + 1], events[i]


def blocks_last(run, events):
    """The blocks are written behind the count of their frames."""
    for i in range(len(events) - 2):
        if events[i][0] == "put" and events[i][1] >= run.start and events[i + 1][0] == "sync" and is_count(run, events[i + 2]):
            events[i], events[i + 2] = events[i + 2], events[i]


def count_unsynced(run, events):
    """Of the syncs of a command only the first is made, so none behind the count."""
    kept, syncs = [], 0
    for event in events:
        syncs = 0 if event[0] == "say" else syncs + (event[0] == "sync")
        kept += [event] if event[0] != "sync" or syncs == 1 else []
    events[:] = kept


images_tried = moments_tried = several = unsafe_found = 0
WRONG = {it: 0 for it in (count_first, blocks_last, count_unsynced)}
for seed in range(len(SHAPES) * TIMES):
    name = f"run {seed}"
    try:
        run = Run(seed)
        name += f": {run.kind}, {run.codec}, {run.channels} times, {run.rate}"
        found, held = moments(run.dice, b"", run.events, run.replies)
        total, faults = run.judge(found)
        images_tried, moments_tried, unsafe_found = images_tried + total, moments_tried + len(found), unsafe_found + len(faults)
        several += sum(len(each) for out, each in found if out >= 2 and len(each) > 1)
        wrong = run.wrong_end(held) + faults
        for change in WRONG if seed % 5 == 0 else ():
            events = list(run.events)
            change(run, events)
            WRONG[change] += len(run.judge(moments(run.dice, b"", events, run.replies)[0])[1])
    except (ValueError, IndexError, OSError, subprocess.TimeoutExpired) as error:
        wrong = [f"it could not be followed: {error}"]
    cases.case(name, wrong)
for change, many in WRONG.items():
    cases.case(f"a wrong trace: {change.__doc__}", [] if many else ["no image that is not safe was found"])
cases.case("the number of images", [] if several >= LEAST else [f"{several} at moments that leave more than one, for {LEAST} or more"])
print(f"power_cut_adpcm: images that are not safe, of wrong traces: {', '.join(f'{change.__name__} {many}' for change, many in WRONG.items())}")
cases.end(len(SHAPES) * TIMES + len(WRONG) + 1, f"; {images_tried} images at {moments_tried} moments ({several} at those that leave more than one), {unsafe_found} unsafe")
