#!/usr/bin/env -S python3 -B
"""What a power cut leaves of a file that `snd script --auto` updates. Scripts of random edits with fixed seeds run on real files
under strace: many on WAVE files of linear samples in all shapes, some on files of each other kind and of the laws of G.711, and
some on WAVE files with a reservation, which become RF64 on the way. From its calls each image is rebuilt that a cut may leave at each
moment (lib/crash_images.py), random mixes with a fixed seed. Each is opened and read by the program: it must have its kind, or while it
is promoted the one of before or after, its parameters and its further chunks, the frames that were acknowledged or those of the command
under way, and each frame that this command does not write. What is wanted comes from a list of frames that is edited beside the program.
The same traces with calls left out or in another order must leave images that are not safe. Needs Python 3, and the Debian package
strace, without which it is skipped. It takes some minutes."""
import os
import random
import struct
import subprocess
import sys

from lib import kinds
from lib.crash_images import moments, read_by_program, traced
from lib.head import Cases, first_difference, has, start

if not has("power_cut", "strace"):
    sys.exit(0)
program = start()
cases = Cases("power_cut")
RUNS, LINES, LEAST = 432, 40, 20000
# how many scripts of each further kind, and of a WAVE file by each law
OTHERS = 4
CODECS = {8: "pcm_u8", 16: "pcm_16_le", 24: "pcm_24_le", 32: "pcm_32_le"}
RATE = 8000
NONE = b"\xff" * 4


# ---- the files

def coded(codec, frames):
    return kinds.coded(codec, [x for frame in frames for x in frame])


def chunk(id, body):
    return id + struct.pack("<I", len(body)) + body + b"\0" * (len(body) % 2)


class Shape:
    """A WAVE file but for its frames: a reservation, the chunks before the data and behind them, and what is wrong with it as it is given."""

    def __init__(self, before=b"", behind=b"", fact=False, front=b"", part=False, loose=b"", room=None):
        self.before, self.behind, self.fact, self.front, self.part, self.loose, self.room = before, behind, fact, front, part, loose, room

    def bytes(self, codec, channels, frames, given=False, count=None):
        """The file; where it has become RF64, `count` frames of it were in it then."""
        align = channels * kinds.size(codec)
        data = coded(codec, frames) + (b"p" * (align - 1) if given and self.part else b"")
        body = b"WAVE" + (b"" if self.room is None else chunk(b"JUNK", self.room)) + chunk(b"fmt ", kinds.format_body(codec, channels, RATE))
        body += self.front + (chunk(b"fact", struct.pack("<I", len(frames) if count is None else count)) if self.fact else b"") + self.before
        start = 8 + len(body) + 8
        body += chunk(b"data", data) + self.behind
        if count is not None:
            # EBU Tech 3306: the first chunk has the sizes, and the count
            sizes = struct.pack("<QQQI", len(body), len(data), len(frames), 0)
            return b"RF64" + NONE + b"WAVEds64" + body[8:12] + sizes + body[40:start - 12] + NONE + body[start - 8:]
        size = 7 if given and self.loose else len(body)
        return b"RIFF" + struct.pack("<I", size) + body + (self.loose if given else b"")


class Other:
    """A file of another kind, or of a law. RF64 and 8SVX files have chunks before the data."""

    behind, part, loose, room = b"", False, b"", None

    def __init__(self, kind):
        self.kind = kind

    def bytes(self, codec, channels, frames, given=False):
        data = coded(codec, frames)
        if self.kind == "rf64":
            return kinds.riff("rf64", codec, channels, RATE, data, NOTES)
        if self.kind == "svx":
            return kinds.svx(RATE, data, kinds.chunk(b"NAME", b"kept", ">") + kinds.chunk(b"abcd", b"odd", ">"))
        return kinds.whole_file(self.kind, codec, channels, RATE, [x for frame in frames for x in frame])

    def further(self, image):
        """The chunks of an image, or None where it is no such file."""
        try:
            return kinds.stated(image).rest
        except (KeyError, IndexError, struct.error, ValueError):
            return None


NOTES = chunk(b"LIST", b"INFOINAM" + struct.pack("<I", 6) + b"notes\0") + chunk(b"abcd", b"odd")
SHAPES = {
    "no further chunk": Shape(),
    "chunks before the data": Shape(NOTES),
    "data that begin a sector": Shape(NOTES + chunk(b"wxyz", b"w" * (512 - 44 - len(NOTES) - 8))),
    "sizes in three sectors": Shape(chunk(b"abcd", b"u" * 900) + NOTES, fact=True),
    "a chunk behind the data": Shape(NOTES, chunk(b"note", b"kept") + chunk(b"LIST", b"INFOICMT" + struct.pack("<I", 6) + b"stays\0")),
    "a count of frames in the head": Shape(fact=True),
    "a count of frames in two sectors": Shape(fact=True, front=chunk(b"fill", b"f" * (510 - 8 - 8 - 36))),
    "a part of a frame at the end": Shape(NOTES, part=True),
    "a wrong size and bytes behind it": Shape(loose=b"loose ends"),
}


# with a reservation, in the same sizes of heads, and one that is larger than it need be
RESERVED = {
    "no further chunk": Shape(room=bytes(28)),
    "chunks before the data": Shape(NOTES, room=bytes(28)),
    # of a law; others begin two bytes before it
    "data that begin a sector": Shape(NOTES + chunk(b"wxyz", b"w" * (512 - 82 - len(NOTES) - 8)), room=bytes(28)),
    "sizes in three sectors": Shape(chunk(b"abcd", b"u" * 900) + NOTES, fact=True, room=bytes(28)),
    "sizes in three sectors, and bytes behind them": Shape(chunk(b"abcd", b"u" * 910) + NOTES, room=bytes(28), loose=b"loose ends"),
    "a chunk behind the data": Shape(NOTES, chunk(b"note", b"kept"), room=bytes(28)),
    "a count of frames in the head": Shape(fact=True, room=bytes(28)),
    "a count of frames in two sectors": Shape(fact=True, front=chunk(b"fill", b"f" * (510 - 8 - 8 - 72)), room=bytes(28)),
    "a part of a frame at the end": Shape(NOTES, part=True, room=bytes(28)),
    "a wrong size and bytes behind it": Shape(loose=b"loose ends", room=bytes(28)),
    "a large reservation": Shape(NOTES, room=b"r" * 700),
}
OTHER = {f"another kind: {kind}": (kind, codecs) for kind, codecs in (*kinds.HOLDS.items(), ("wave", kinds.LAWS)) if kind != "wave" or codecs == kinds.LAWS}


def further(image):
    """The chunks of an image but for what tells the number of frames, and where its data begin; None where it is no WAVE or RF64 file."""
    if len(image) < 48 and image[:4] == b"RF64" or image[:4] not in (b"RIFF", b"RF64") or image[8:12] != b"WAVE":
        return None
    at, end, found, start, is_wide = 12, len(image), [], None, image[:4] == b"RF64"
    while at + 8 <= end:
        id, size = image[at:at + 4], struct.unpack_from("<I", image, at + 4)[0]
        if id == b"data" and start is None:
            start = at + 8
            whole, size = struct.unpack_from("<QQ", image, 20) if is_wide else (struct.unpack_from("<I", image, 4)[0], size)
            # what is behind the data counts as far as the whole goes
            end = min(end, 8 + whole)
        elif at == 12 and id in (b"JUNK", b"ds64"):
            # a reservation, or what it has become
            found.append((b"", image[at + 8 + 28:at + 8 + size]))
        else:
            found.append((id, b"" if id == b"fact" else image[at + 8:at + 8 + size]))
        at += 8 + size + size % 2
    return found, start


# ---- the script, beside the program

class Model:
    """What the lines of a script do to a list of frames, and what they answer."""

    def __init__(self, kind, codec, channels, frames, grows, has_room):
        self.kind, self.codec, self.channels, self.frames, self.grows, self.has_room = kind, codec, channels, frames, grows, has_room
        self.bits = kinds.width(codec)
        self.read_at = self.write_at = 0
        # how many frames there were when it became RF64
        self.count = None

    def shown(self):
        return f"ok {len(self.frames)} {self.channels} {RATE} {self.kind} {self.codec}"

    def answer(self, line):
        words = line.split()
        if not words or words[0][0] == "#":
            return []
        what, rest = words[0], words[1:]
        if what in ("open", "create", "close", "auto"):
            return ["error 65 Pinned"]
        if what == "write":
            return [self.write([int(it) for it in rest])]
        if what == "seek":
            return [self.seek(rest[0], int(rest[1]))]
        if what == "read":
            got = self.frames[self.read_at:self.read_at + int(rest[0])]
            self.read_at += len(got)
            return [f"ok {len(got)}", *texts(got)]
        if what == "truncate":
            return [self.truncate(int(rest[0]))]
        if what == "trim":
            return [f"ok {len(self.frames)}" if self.grows else "error 25 TrailingData"]
        if what == "promote":
            return [self.promote()]
        if what == "reserve":
            return ["error 44 WrongMode"]
        return [{"info": self.shown(), "update": f"ok {len(self.frames)}"}.get(what, "error 40 BadCommand")]

    def write(self, numbers):
        high = 1 << (self.bits - 1)
        if not numbers or any(not -2**31 <= x < 2**31 for x in numbers):
            return "error 40 BadCommand"
        if len(numbers) % self.channels:
            return "error 22 PartFrame"
        if any(not -high <= x < high for x in numbers):
            return "error 23 SampleRange"
        numbers = kinds.kept(self.codec, numbers)
        new = [tuple(numbers[i:i + self.channels]) for i in range(0, len(numbers), self.channels)]
        if self.write_at + len(new) > len(self.frames) and not self.grows:
            return "error 25 TrailingData"
        # a new list, since the ones before are kept
        self.frames = self.frames[:self.write_at] + new + self.frames[self.write_at + len(new):]
        self.write_at += len(new)
        return f"ok {len(new)}"

    def promote(self):
        if not self.has_room:
            return "error 60 NoRoom"
        if not self.grows:
            return "error 25 TrailingData"
        self.kind, self.count, self.has_room = "rf64", len(self.frames), False
        return f"ok {self.count}"

    def seek(self, which, to):
        if to > len(self.frames):
            return "error 24 SeekRange"
        self.read_at = to if "r" in which else self.read_at
        self.write_at = to if "w" in which else self.write_at
        return f"ok {to}"

    def truncate(self, to):
        if to > len(self.frames):
            return "error 24 SeekRange"
        if to < len(self.frames) and not self.grows:
            return "error 25 TrailingData"
        self.frames = self.frames[:to]
        self.read_at, self.write_at = min(self.read_at, to), min(self.write_at, to)
        return f"ok {to}"


def texts(frames):
    return [" ".join(map(str, frame)) for frame in frames]


def random_frames(dice, bits, channels, count):
    high = 1 << (bits - 1)
    return [tuple(dice.randint(-high, high - 1) for _ in range(channels)) for _ in range(count)]


def write_of(numbers):
    """The line that writes them, as far as one line goes."""
    line = "write " + " ".join(map(str, numbers))
    return line if len(line) <= 4096 else ""


def random_lines(dice, model):
    """The next edit of a random script, with the seek before it: small and large writes, over frames, over the end and behind it,
    cuts, and lines that are refused."""
    many, bits, channels = len(model.frames), model.bits, model.channels
    # the longest number and its space, in a line of 4096 bytes
    large = 4000 // (len(str(1 << (bits - 1))) + 2) // channels
    more = ["promote"] * 2 if model.has_room else []
    what = dice.choice(["behind"] * 5 + ["over"] * 4 + ["over the end"] * 3 + ["cut"] * 2 + ["refused"] * 2 + ["trim", "update", "read", "nothing"] + more)
    if what in ("behind", "over", "over the end"):
        at = many if what == "behind" else dice.randint(max(many - 20, 0), many) if what == "over the end" else dice.randint(0, many)
        count = dice.choice([1, 2, dice.randint(1, 40), dice.randint(1, large)])
        if what == "over" or not model.grows and dice.random() < .8:
            at = min(at, max(many - 1, 0))
            count = max(min(count, many - at), 1)
        new = random_frames(dice, bits, channels, count)
        if model.codec == "ulaw":
            # those that mean 0 by its other byte
            new = [tuple(0 if -4 < x < 0 else x for x in frame) for frame in new]
        return [f"seek w {at}", write_of([x for frame in new for x in frame])]
    if what == "cut":
        return [f"truncate {dice.choice([many, max(many - 1, 0), dice.randint(many // 2, many), dice.randint(0, many)])}"]
    if what == "read":
        return [f"seek r {dice.randint(0, many)}", f"read {dice.randint(0, 30)}"]
    if what == "refused":
        return [dice.choice([f"seek rw {many + 1}", f"truncate {many + 9}", "open u a.wav", "create wave pcm_u8 1 8000 a.wav", "close", "auto off", "auto on", "reserve", "promote",
                             "write", "write 2147483648", write_of([0] * (channels + 1)), write_of([1 << (bits - 1)] * channels), "nonsense"])]
    return [{"nothing": dice.choice(["", "# a remark", "info"])}.get(what, what)]


# ---- what is wrong with an image

def told_by_info(at):
    """What `snd info` says of an image, but for its name and what comes from the number of frames, and this number."""
    done = subprocess.run([program, "info", f"i{at}"], capture_output=True)
    lines = done.stdout.decode("latin-1").split("\n")
    return [it for it in lines if it.split(" ")[0] not in ("name", "frames", "duration")], [it for it in lines if it.startswith("frames")]


class Run:
    """A script on a file: the replies that are wanted, the frames before each of them and behind the last, and the calls."""

    def __init__(self, seed):
        self.dice = random.Random(f"power cut {seed}")
        if seed < RUNS:
            self.name = list(SHAPES)[seed % len(SHAPES)]
            self.shape, self.kind, self.codec, self.channels = SHAPES[self.name], "wave", CODECS[8 * (1 + seed // 9 % 4)], 1 + seed // 36 % 3
            self.further = further
        elif seed >= FIRST_RESERVED:
            time = seed - FIRST_RESERVED
            self.name = list(RESERVED)[time % len(RESERVED)]
            self.shape, self.kind, self.channels, self.further = RESERVED[self.name], "wave", 1 + time // len(RESERVED) // len(kinds.HOLDS["wave"]), further
            self.codec = kinds.HOLDS["wave"][time // len(RESERVED) % len(kinds.HOLDS["wave"])]
            self.name = f"a reservation, {self.name}"
        else:
            self.name, time = list(OTHER)[(seed - RUNS) % len(OTHER)], (seed - RUNS) // len(OTHER)
            self.kind, codecs = OTHER[self.name]
            self.shape, self.codec, self.channels = Other(self.kind), codecs[time * len(codecs) // OTHERS], 1 + time % min(kinds.MOST.get(self.kind, 3), 3)
            self.further = self.shape.further
        many = self.dice.randint(100, 500) if self.shape.behind else self.dice.choice([0, 1, 7, self.dice.randint(30, 300)])
        frames = random_frames(self.dice, kinds.width(self.codec), self.channels, many)
        frames = [tuple(kinds.kept(self.codec, it)) for it in frames]
        self.first = self.shape.bytes(self.codec, self.channels, frames, True)
        self.chunks = self.further(self.first)
        model = Model(self.kind, self.codec, self.channels, frames, not self.shape.behind, self.shape.room is not None)
        self.replies, self.states, self.kinds, lines = [model.shown(), f"ok {len(frames)}"], [frames, frames, frames], [self.kind] * 3, []
        while len(lines) < LINES:
            for line in random_lines(self.dice, model):
                lines.append(line)
                answer = model.answer(line)
                if answer:
                    self.replies.append("\n".join(answer))
                    self.states.append(model.frames)
                    self.kinds.append(model.kind)
        self.replies = [f"{it}\n".encode() for it in self.replies]
        self.texts, self.count = {id(it): texts(it) for it in self.states}, model.count
        with open("a.wav", "wb") as file:
            file.write(self.first)
        self.done, self.events = traced(program, ["script", "--auto", "a.wav"], lines, b"a.wav")
        with open("a.wav", "rb") as file:
            self.last = file.read()
        self.most = max(map(len, self.states))

    def wrong_end(self, held):
        """What is wrong with the run but for its images: what it said, its calls, and the file at its end."""
        wrong = first_difference("standard output", self.done.stdout, b"".join(self.replies)) + first_difference("standard error", self.done.stderr, b"")
        status = 1 if any(it.startswith(b"error") for it in self.replies) else 0
        wrong += [f"status {self.done.returncode} for {status}"] * (self.done.returncode != status)
        wrong += [f"a call that is not known: {it[1]}" for it in self.events if it[0] == "unknown"]
        wrong += [f"{len(held) - 1} writes or cuts are not synced at the end"] * (len(held) > 1)
        wrong += first_difference("the file, and what its calls make of it", self.last, held[-1])
        want = self.shape.bytes(self.codec, self.channels, self.states[-1], *([] if self.count is None else [False, self.count]))
        return wrong + first_difference("the file at the end", self.last[:len(want)] if self.shape.loose or self.shape.part else self.last, want)

    def unsafe(self, out, image, answer):
        """Why an image is not safe when so many replies are out, or None."""
        opened, frames, closed = answer
        old, new = self.states[out], self.states[min(out + 1, len(self.states) - 1)]
        kinds_then = {self.kinds[out], self.kinds[min(out + 1, len(self.kinds) - 1)]}
        if opened not in {f"ok {len(frames)} {self.channels} {RATE} {it} {self.codec}" for it in kinds_then} or closed != f"ok {len(frames)}":
            return f"it says {opened!r} and {closed!r}, and has {len(frames)} frames"
        if len(frames) not in (len(old), len(new)):
            return f"it has {len(frames)} frames, for {len(old)} or {len(new)}"
        if self.further(image) != self.chunks:
            return "its further chunks are others"
        behind = self.chunks[1] + len(coded(self.codec, old)) if self.shape.behind else 0
        if self.shape.behind and image[behind:] != self.first[behind:]:
            return "what stands behind the data is other"
        was, will = self.texts[id(old)], self.texts[id(new)]
        if frames == was or frames == will:
            return None
        if len(frames) > len(old):
            return "its count has risen, and its frames are not the new ones"
        changed = [i for i in range(len(frames)) if frames[i] != was[i] and (i >= len(new) or old[i] == new[i])]
        return f"frame {changed[0]} was not to be written, and is {frames[changed[0]]!r}" if changed else None

    def judge(self, found, share):
        """How many images of these moments there are, the faults of those that are not safe, and of those that `info` tells other."""
        distinct = list({image: None for _, each in found for image in sorted(each)})
        answers = read_by_program(program, distinct, self.most + 1)
        total, faults = 0, []
        for at, (out, each) in enumerate(found):
            for image in sorted(each):
                total += 1
                why = self.unsafe(out, image, answers[image])
                faults += [f"after call {at}, with {out} replies out: {why}"] if why else []
        wrong = []
        first = told_by_info(0)[0] if share else []
        for at in range(0, len(distinct), share) if share else []:
            told, frames = told_by_info(at)
            # where the kind changes, that is told by the first bytes
            want = ["kind rf64" if it.startswith("kind ") and distinct[at][:4] == b"RF64" else it for it in first]
            if told != want or frames != [f"frames {len(answers[distinct[at]][1])}"]:
                wrong.append(f"`info` says {told + frames} of an image, for {want}")
        for i in range(len(distinct)):
            os.remove(f"i{i}")
        return total, faults, wrong


# ---- traces that are wrong

def is_size(event, at):
    return event[0] == "put" and event[1] == at and len(event[2]) == 4 and event[2] != NONE


def swapped(events, i, j):
    events[i], events[j] = events[j], events[i]


def whole_first(run, events):
    """The size of the whole is written before that of the data, while the file grows."""
    for i in range(len(events) - 2):
        if is_size(events[i], run.chunks[1] - 4) and events[i + 1][0] == "sync" and is_size(events[i + 2], 4):
            swapped(events, i, i + 2)


def whole_last(run, events):
    """The size of the whole is written behind that of the data, while the file shrinks."""
    for i in range(len(events) - 2):
        if is_size(events[i], 4) and events[i + 1][0] == "sync" and is_size(events[i + 2], run.chunks[1] - 4):
            swapped(events, i, i + 2)


def data_unsynced(run, events):
    """The size of the data is written before the sync of these."""
    for i in range(1, len(events) - 1):
        if events[i - 1][0] == "put" and events[i][0] == "sync" and is_size(events[i + 1], run.chunks[1] - 4):
            swapped(events, i, i + 1)


def sizes_unsynced(run, events):
    """Of the syncs of a command only the first is made."""
    kept, syncs = [], 0
    for event in events:
        syncs = 0 if event[0] == "say" else syncs + (event[0] == "sync")
        kept += [event] if event[0] != "sync" or syncs == 1 else []
    events[:] = kept


def turns(events):
    """The places of the writes that turn a file into RF64."""
    return [i for i, event in enumerate(events) if event[0] == "put" and event[1] == 0 and len(event[2]) == 48]


def front_unsynced(run, events):
    """The sync is left out between the two writes of a promotion."""
    for i in reversed(turns(events)):
        del events[i + 1]


def front_last(run, events):
    """The size that says nothing is written before the first 48 bytes of RF64."""
    for i in turns(events):
        swapped(events, i, i + 2)


def front_in_two(run, events):
    """The mark of RF64 is written first, and its sizes behind a sync."""
    for i in reversed(turns(events)):
        events[i:i + 1] = [("put", 0, events[i][2][:12]), ("sync",), ("put", 12, events[i][2][12:])]


FIRST_RESERVED = RUNS + OTHERS * len(OTHER)
SEEDS = FIRST_RESERVED + 2 * len(RESERVED) * len(kinds.HOLDS["wave"])
LEAST_TURNED = 60
images_tried = moments_tried = in_flight = unsafe_found = turned = 0
WRONG = {it: 0 for it in (whole_first, whole_last, data_unsynced, sizes_unsynced)}
WRONG_TURNS = {it: 0 for it in (front_unsynced, front_last, front_in_two)}


def wrong_traces(run, seed):
    """The tables of wrong traces that are tried on a run: some runs of each shape and each width; of those that become RF64 also each whose
    sizes lie in more than one sector."""
    tables = [WRONG] if seed % 23 == 0 and (seed < RUNS or seed >= FIRST_RESERVED) else []
    return tables + ([WRONG_TURNS] if turns(run.events) and (seed % 7 == 0 or run.chunks[1] > 512) else [])


for seed in range(SEEDS):
    name = f"run {seed}"
    try:
        run = Run(seed)
        name += f": {run.channels} times {run.codec}, {run.name}"
        found, held = moments(run.dice, run.first, run.events, run.replies)
        total, faults, told = run.judge(found, 50)
        images_tried, moments_tried, unsafe_found = images_tried + total, moments_tried + len(found), unsafe_found + len(faults)
        in_flight += sum(len(each) for _, each in found if len(each) > 1)
        turned += len(turns(run.events))
        wrong = run.wrong_end(held) + faults + told
        for table in wrong_traces(run, seed):
            for change in table:
                events = list(run.events)
                change(run, events)
                table[change] += len(run.judge(moments(run.dice, run.first, events, run.replies)[0], 0)[1])
    except (ValueError, IndexError, subprocess.TimeoutExpired) as error:
        wrong = [f"it could not be followed: {error}"]
    cases.case(name, wrong)
WRONG |= WRONG_TURNS
for change, many in WRONG.items():
    cases.case(f"a wrong trace: {change.__doc__}", [] if many else ["no image that is not safe was found"])
cases.case("the number of images", [] if in_flight >= LEAST else [f"{in_flight} at moments that leave more than one, for {LEAST} or more"])
cases.case("the number of promotions", [] if turned >= LEAST_TURNED else [f"{turned}, for {LEAST_TURNED} or more"])
print(f"power_cut: images that are not safe, of wrong traces: {', '.join(f'{change.__name__} {many}' for change, many in WRONG.items())}")
cases.end(SEEDS + len(WRONG) + 2, f"; {images_tried} images at {moments_tried} moments ({in_flight} at those that leave more than one), {turned} promotions, {unsafe_found} unsafe")
