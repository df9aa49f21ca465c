#!/usr/bin/env -S python3 -B
"""WAVE files with a reservation, and RF64 files that they become in place: the script commands `reserve` and `promote`. Where each is
refused, and in which order; every byte of what is made, in each codec; files of other makers, odd ones among them; a file past 4 GiB,
mostly a hole in the disk; and the calls that a promotion makes. The two worked scripts, and the sizes of the large file, are written out by
hand; the other files follow EBU Tech 3306 (2009): the chunk `JUNK` before all others becomes `ds64`. sox, ffmpeg and libsndfile's programs
read, sample for sample, the reserved file, what stands between the two writes of a promotion, and the promoted file; and files of
`ffmpeg -rf64 auto` once they are promoted. Needs Python 3. Of the Debian packages sox, ffmpeg, sndfile-programs and strace what is missing
is skipped, with a line for each; a program that is there and fails is a failure."""
import os
import random
import struct
import subprocess

from lib import blocks, kinds
from lib.crash_images import traced
from lib.head import Cases, ended, finished, first_difference, has, start
from lib.kinds import chunk
from lib.made_rows import BEXT
from lib.readers import Readers, other_numbers, out_of

program = start()
cases = Cases("promotions")
RATE, NONE = 8000, b"\xff" * 4
ROOM, WRONG_MODE = "error 60 NoRoom", "error 44 WrongMode"


# ---- the files

def coded(codec, numbers):
    return kinds.coded(codec, numbers)


def reserved(codec, channels, data, pieces=b"", room=bytes(28), behind=b"", count=None):
    """A WAVE file whose first chunk is a reservation; of a law `fact` says the frames, or this count."""
    frames = len(data) // (channels * kinds.size(codec)) if count is None else count
    fact = chunk(b"fact", struct.pack("<I", frames)) if codec in kinds.LAWS else b""
    body = b"WAVE" + chunk(b"JUNK", room) + chunk(b"fmt ", kinds.format_body(codec, channels, RATE)) + pieces + fact + chunk(b"data", data) + behind
    return b"RIFF" + struct.pack("<I", len(body)) + body


def parts(b):
    """Where the data of a WAVE file begin, how many bytes they have, and how many a frame has."""
    places = {id: (at, many) for id, at, many in reversed(kinds.riff_chunks(b, "<"))}
    return *places[b"data"], struct.unpack_from("<H", b, places[b"fmt "][0] + 12)[0]


def between(b):
    """What stands between the two writes: the first 48 bytes are those of RF64."""
    start, many, align = parts(b)
    return b"RF64" + NONE + b"WAVEds64" + b[16:20] + struct.pack("<QQQI", start + many + many % 2 - 8, many, many // align, 0) + b[48:]


def promoted(b):
    """The RF64 file that a WAVE file with a reservation becomes."""
    start = parts(b)[0]
    return between(b)[:start - 4] + NONE + b[start:]


def with_data(b, data):
    """A WAVE file of other data, whose further counts stay."""
    b = b[:parts(b)[0] - 4] + struct.pack("<I", len(data)) + data + b"\0" * (len(data) % 2)
    return b[:4] + struct.pack("<I", len(b) - 8) + b[8:]


def put(files):
    """Leaves these files in the folder, and no others."""
    for name in os.listdir("."):
        os.remove(name)
    for name, content in files.items():
        with open(name, "wb") as file:
            file.write(content)


def held():
    found = {}
    for name in sorted(os.listdir(".")):
        with open(name, "rb") as file:
            found[name] = file.read()
    return found


def wrong_files(wanted):
    left = held()
    wrong = [f"{name} is {'missing' if name in wanted else 'there'}" for name in sorted({*left} ^ {*wanted})]
    return wrong + [it for name in sorted({*left} & {*wanted}) for it in first_difference(name, left[name], wanted[name])]


def text_of(lines):
    return "".join(f"{line}\n" for line in lines).encode()


def wrong_run(talk, words=("script",)):
    """The faults of a script, each of whose lines stands with its reply; lines of the run before the first have none."""
    lines, replies = [line for line, _ in talk if line is not None], [reply for _, reply in talk]
    status = int(any(reply.startswith("error") for reply in replies))
    return ended(finished([program, *words], text_of(lines)), text_of(replies), b"", status)


def run(what, before, talk, after, words=("script",)):
    """A case: a script over these files, each of its lines with its reply, and the files behind it."""
    put(before)
    cases.case(what, wrong_run(talk, words) + wrong_files({**before, **after}))


def line_of(frames, codec="pcm_16_le", channels=1, kind="wave"):
    return f"ok {frames} {channels} {RATE} {kind} {codec}"


def create(name="r.wav", codec="pcm_16_le", kind="wave"):
    return f"create {kind} {codec} 1 {RATE} {name}", line_of(0, codec, 1, kind)


def of(*numbers):
    """The bytes of numbers of 16 bits."""
    return coded("pcm_16_le", numbers)


def plain(*numbers, pieces=b"", behind=b""):
    return kinds.riff("wave", "pcm_16_le", 1, RATE, of(*numbers), pieces, behind)


def kept(*numbers, **more):
    return reserved("pcm_16_le", 1, of(*numbers), **more)


# ---- the worked scripts
PLAIN = bytes.fromhex("524946462800000057415645666d74201000000001000100401f0000803e00000200100064617461040000000100ffff")
EMPTY = bytes.fromhex("5249464648000000574156454a554e4b1c00000000000000000000000000000000000000000000000000000000000000666d74201000000001000100401f0000803e0000020010006461746100000000")
LONGER = bytes.fromhex("52463634ffffffff57415645647336341c0000004e000000000000000600000000000000030000000000000000000000"
                       "666d74201000000001000100401f0000803e00000200100064617461ffffffff0100ffff0500")
run("a reserved file is promoted in place", {}, [
    create("p.wav"), ("reserve", "ok"), ("write 1 -1", "ok 2"), ("close", "ok 2"), ("open u p.wav", line_of(2)), ("auto on", "ok 2"), ("promote", "ok 2"),
    ("seek w 2", "ok 2"), ("write 5", "ok 1"), ("info", line_of(3, kind="rf64")), ("close", "ok 3")], {"p.wav": LONGER})
run("promotion wants a reservation", {"a.wav": PLAIN}, [
    ("open u a.wav", line_of(2)), ("promote", ROOM), ("close", "ok 2"), create("q.wav"), ("promote", WRONG_MODE), ("reserve", "ok"), ("reserve", ROOM), ("close", "ok 0")],
    {"q.wav": EMPTY})
# the bytes that were worked out, beside those that this check works out
cases.case("a reserved file and a promoted one, as this check knows them", first_difference("reserved", kept(), EMPTY) + first_difference("promoted", promoted(kept(1, -1, 5)), LONGER))

# ---- `reserve` in each kind and codec
for kind, codecs in kinds.HOLDS.items():
    for codec in codecs:
        made = reserved(codec, 1, b"") if kind == "wave" else kinds.whole_file(kind, codec, 1, RATE, [])
        run(f"a reservation in {kind}, {codec}", {}, [create("n", codec, kind), ("reserve", "ok" if kind == "wave" else ROOM), ("close", "ok 0")], {"n": made})
for kind in ("wave", "w64"):
    for codec in ("ima", "ms"):
        run(f"a reservation in {kind}, {codec}", {}, [create("n", codec, kind), ("reserve", ROOM), ("close", "ok 0")], {"n": blocks.whole_file(kind, codec, 1, RATE, [])})

# ---- what comes before it
LATE, AUTOMATIC = "error 28 FramesWritten", "error 32 AutoOn"
ABCD, TITLE = chunk(b"abcd", b"\1"), chunk(b"LIST", b"INFO" + chunk(b"INAM", b"A\0"))
CUE = chunk(b"cue ", struct.pack("<III4sIII", 1, 1, 7, b"data", 0, 0, 7))
EXTENSION = chunk(b"bext", BEXT)
FRONTS = [
    ("a frame", [("write 5", "ok 1"), ("reserve", LATE)], plain(5)),
    ("a frame that was cut off", [("write 5", "ok 1"), ("truncate 0", "ok 0"), ("reserve", LATE), ("reserve", LATE)], plain()),
    ("a frame, and an update", [("write 5", "ok 1"), ("update", "ok 1"), ("reserve", LATE)], plain(5)),
    ("a frame and a reservation", [("reserve", "ok"), ("write 5", "ok 1"), ("reserve", LATE)], kept(5)),
    ("an automatic frame", [("auto on", "ok 0"), ("write 5", "ok 1"), ("reserve", LATE)], plain(5)),
    ("a frame that was refused", [("write 40000", "error 23 SampleRange"), ("write", "error 40 BadCommand"), ("reserve", "ok")], kept()),
    ("automatic updates", [("auto on", "ok 0"), ("reserve", AUTOMATIC)], plain()),
    ("automatic updates that ended", [("auto on", "ok 0"), ("reserve", AUTOMATIC), ("auto off", "ok 0"), ("reserve", "ok")], kept()),
    ("a chunk", [("set chunk abcd 01", "ok"), ("reserve", ROOM)], plain(pieces=ABCD)),
    ("a text", [("set string title A", "ok"), ("reserve", ROOM)], plain(pieces=TITLE)),
    ("a field", [("set bext originator X", "ok"), ("reserve", ROOM)], plain(pieces=EXTENSION)),
    ("a cue point", [("set cue 7", "ok"), ("reserve", ROOM)], plain(pieces=CUE)),
    ("a chunk that was refused", [("set chunk data 00", "error 29 ReservedChunk"), ("reserve", "ok")], kept()),
    ("a chunk and a frame", [("set chunk abcd 01", "ok"), ("write 5", "ok 1"), ("reserve", LATE)], plain(5, pieces=ABCD)),
    ("a chunk and automatic updates", [("set chunk abcd 01", "ok"), ("auto on", "ok 0"), ("reserve", AUTOMATIC), ("auto off", "ok 0"), ("reserve", ROOM)], plain(pieces=ABCD)),
    ("a reservation", [("reserve", "ok"), ("reserve", ROOM), ("reserve", ROOM)], kept()),
    ("a reservation and a chunk", [("reserve", "ok"), ("set chunk abcd 01", "ok"), ("reserve", ROOM)], kept(pieces=ABCD)),
    ("what changes nothing", [("seek w 0", "ok 0"), ("truncate 0", "ok 0"), ("update", "ok 0"), ("trim", "ok 0"), ("reserve", "ok"), ("write 5 6", "ok 2")], kept(5, 6)),
]
for what, talk, made in FRONTS:
    run(f"a reservation behind {what}", {}, [create(), *talk], {"r.wav": made})
OTHERS = [("au", "pcm_16_be", kinds.whole_file("au", "pcm_16_be", 1, RATE, [5])), ("rf64", "pcm_16_le", kinds.whole_file("rf64", "pcm_16_le", 1, RATE, [5])),
          ("wave", "ima", blocks.whole_file("wave", "ima", 1, RATE, [5])), ("w64", "ms", blocks.whole_file("w64", "ms", 1, RATE, [5]))]
for kind, codec, made in OTHERS:
    # the room is looked at last
    run(f"a reservation behind a frame in {kind}, {codec}", {}, [
        create("n", codec, kind), ("auto on", "ok 0"), ("reserve", AUTOMATIC), ("write 5", "ok 1"), ("reserve", LATE), ("promote", WRONG_MODE)], {"n": made})

# ---- modes and words
TWO = {"a.wav": plain(1, -1), "r.wav": kept(1, -1)}
run("no file is open", {}, [("reserve", "error 42 NotOpen"), ("promote", "error 42 NotOpen"), create(), ("close", "ok 0"), ("reserve", "error 42 NotOpen"), ("promote", "error 42 NotOpen")], {"r.wav": plain()})
run("a file that is read", TWO, [("open r r.wav", line_of(2)), ("reserve", WRONG_MODE), ("promote", WRONG_MODE), ("read 9", "ok 2\n1\n-1")], {})
run("a file that is updated is given no reservation", TWO, [("open u a.wav", line_of(2)), ("reserve", WRONG_MODE), ("auto on", "ok 2"), ("reserve", WRONG_MODE)], {})
run("a file that is made is not promoted", {}, [
    create(), ("promote", WRONG_MODE), ("reserve", "ok"), ("promote", WRONG_MODE), ("write 5", "ok 1"), ("promote", WRONG_MODE), ("auto on", "ok 1"), ("promote", WRONG_MODE), ("close", "ok 1")], {"r.wav": kept(5)})
run("a pinned file is given no reservation", TWO, [(None, line_of(2)), (None, "ok 2"), ("reserve", WRONG_MODE), ("promote", ROOM), ("reserve", WRONG_MODE)], {}, ("script", "--auto", "a.wav"))
run("a pinned file is promoted", TWO, [
    (None, line_of(2)), (None, "ok 2"), ("promote", "ok 2"), ("promote", ROOM), ("auto on", "error 65 Pinned"), ("close", "error 65 Pinned"), ("seek w 2", "ok 2"), ("write 5", "ok 1"),
    ("info", line_of(3, kind="rf64")), ("read 9", "ok 3\n1\n-1\n5")], {"r.wav": LONGER}, ("script", "--auto", "r.wav"))
for line in ("reserve 28", "reserve 0", "reserve r.wav", "promote 2", "promote rf64", "promote r.wav", "Reserve", "PROMOTE", "reserved", "promot"):
    run(f"other words: {line}", TWO, [("open u r.wav", line_of(2)), (line, "error 40 BadCommand"), ("close", "ok 2"), create("n"), (line, "error 40 BadCommand")], {"n": plain()})

# ---- what is set behind a reservation
SETS = [("set string title A", "ok"), ("set chunk abcd 01", "ok"), ("set cue 7", "ok"), ("set bext originator X", "ok")]
ALL = TITLE + ABCD + CUE + EXTENSION
run("chunks behind a reservation", {}, [create(), ("reserve", "ok"), *SETS, ("get chunks", "ok 4\nLIST 14\nabcd 1\ncue_ 28\nbext 602"), ("get strings", "ok 1\ntitle A"), ("write 5", "ok 1"), ("reserve", LATE)],
    {"r.wav": kept(5, pieces=ALL)})
run("texts that are set again behind a reservation", {}, [create(), ("reserve", "ok"), ("set string title A", "ok"), ("set cue 5", "ok"), ("set string artist Bo", "ok"), ("set cue 7", "ok"), ("write 5", "ok 1")],
    {"r.wav": kept(5, pieces=chunk(b"LIST", b"INFO" + chunk(b"INAM", b"A\0") + chunk(b"IART", b"Bo\0")) + CUE)})
# the filler goes by where the size of the data would stand: at 510, in two sectors, and for shorter and longer bodies in one
for size, start_at, filler in ((424, 512, b""), (425, 530, chunk(b"JUNK", bytes(8))), (426, 530, chunk(b"JUNK", bytes(8))), (427, 516, b""), (428, 516, b"")):
    before = kept(1, -1, pieces=chunk(b"abcd", bytes(size)) + filler)
    after = promoted(kept(1, -1, 5, pieces=chunk(b"abcd", bytes(size)) + filler))
    run(f"a chunk of {size} bytes behind a reservation", {}, [create(), ("reserve", "ok"), (f"set chunk abcd {'00' * size}", "ok"), ("auto on", "ok 0"), ("write 1 -1", "ok 2")], {"r.wav": before})
    wrong = [] if before[start_at - 8:start_at - 4] == b"data" else [f"the data are not meant to begin at {start_at}"]
    cases.case(f"and it is promoted: {size} bytes", wrong + wrong_run([("open u r.wav", line_of(2)), ("auto on", "ok 2"), ("promote", "ok 2"), ("seek w 2", "ok 2"), ("write 5", "ok 1")]) + wrong_files({"r.wav": after}))
MANY = chunk(b"abcd", b"") * 240
run("240 chunks behind a reservation", {}, [create(), ("reserve", "ok"), *[("set chunk abcd -", "ok")] * 240, ("set chunk abcd -", "error 5 TooManyChunks"), ("write 1 -1", "ok 2")], {"r.wav": kept(1, -1, pieces=MANY)})
cases.case("and it is promoted: 240 chunks", wrong_run([("open u r.wav", line_of(2)), ("promote", "ok 2"), ("close", "ok 2"), ("open r r.wav", line_of(2, kind="rf64")), ("get chunk abcd", "ok 0")])
           + wrong_files({"r.wav": promoted(kept(1, -1, pieces=MANY))}))

# ---- files of each codec that are made, promoted, and longer then
for codec in kinds.HOLDS["wave"]:
    for channels in (1, 2):
        for frames in (0, 1, 3):
            numbers = [(-1) ** i * (i + 1) for i in range(channels * frames)]
            more = [7, -7] * channels
            data, both = coded(codec, numbers), coded(codec, numbers + more)
            put({})
            wrong = wrong_run([(f"create wave {codec} {channels} {RATE} r.wav", line_of(0, codec, channels)), ("reserve", "ok"), *[(f"write {' '.join(map(str, numbers))}", f"ok {frames}")] * (frames > 0)])
            wrong += wrong_files({"r.wav": reserved(codec, channels, data)})
            wrong += wrong_run([("open u r.wav", line_of(frames, codec, channels)), ("promote", f"ok {frames}"), ("info", line_of(frames, codec, channels, "rf64")), ("promote", ROOM)])
            wrong += wrong_files({"r.wav": promoted(reserved(codec, channels, data))})
            # the count in `fact` stays behind
            wrong += wrong_run([("open u r.wav", line_of(frames, codec, channels, "rf64")), ("promote", ROOM), (f"seek w {frames}", f"ok {frames}"), (f"write {' '.join(map(str, more))}", "ok 2")])
            longer = promoted(reserved(codec, channels, both, count=frames))
            shown = kinds.kept(codec, numbers + more)
            rows = [" ".join(map(str, shown[i:i + channels])) for i in range(0, len(shown), channels)]
            wrong += wrong_files({"r.wav": longer}) + wrong_run([("open r r.wav", line_of(frames + 2, codec, channels, "rf64")), ("read 9", "\n".join([f"ok {frames + 2}", *rows]))])
            cases.case(f"{frames} frames of {channels} times {codec} are promoted", wrong)

# ---- a promotion among other lines
THREE = {"r.wav": kept(1, 2, 3)}
OPEN = ("open u r.wav", line_of(3))
AMONG = [
    ("places stay", [OPEN, ("seek r 1", "ok 1"), ("seek w 2", "ok 2"), ("promote", "ok 3"), ("read 1", "ok 1\n2"), ("write 9 8", "ok 2")], promoted(kept(1, 2, 9, 8))),
    ("frames that were just written", [OPEN, ("seek w 3", "ok 3"), ("write 4 5", "ok 2"), ("promote", "ok 5"), ("write 6", "ok 1")], promoted(kept(1, 2, 3, 4, 5, 6))),
    ("it is cut afterwards", [OPEN, ("promote", "ok 3"), ("truncate 1", "ok 1"), ("info", line_of(1, kind="rf64")), ("update", "ok 1")], promoted(kept(1))),
    ("it is cut before", [OPEN, ("truncate 0", "ok 0"), ("promote", "ok 0"), ("promote", ROOM), ("write 4", "ok 1")], promoted(kept(4))),
    ("it is trimmed afterwards", [OPEN, ("promote", "ok 3"), ("trim", "ok 3"), ("auto on", "ok 3"), ("auto off", "ok 3"), ("trim", "ok 3")], promoted(kept(1, 2, 3))),
    ("it is refused on the way", [OPEN, ("promote", "ok 3"), ("seek w 4", "error 24 SeekRange"), ("write 40000", "error 23 SampleRange"), ("set chunk abcd 01", WRONG_MODE), ("reserve", WRONG_MODE)], promoted(kept(1, 2, 3))),
    ("a tap sees frames before and after", [OPEN, ("tap peak", "ok"), ("read 2", "ok 2\n1\n2"), ("promote", "ok 3"), ("read 2", "ok 1\n3"), ("untap peak", "ok peak 3 3")], promoted(kept(1, 2, 3))),
]
for what, talk, made in AMONG:
    run(f"a promotion: {what}", THREE, talk, {"r.wav": made})

# ---- files of other makers
NOTE = chunk(b"note", b"kept")
run("a chunk stands behind the data", {"r.wav": kept(1, 2, 3, behind=NOTE)}, [OPEN, ("promote", "error 25 TrailingData"), ("write 9", "ok 1"), ("promote", "error 25 TrailingData"), ("auto on", "ok 3"), ("promote", "error 25 TrailingData")],
    {"r.wav": kept(9, 2, 3, behind=NOTE)})
run("texts and a field stand behind the data", {"r.wav": kept(1, 2, 3, behind=TITLE + EXTENSION)}, [OPEN, ("promote", "error 25 TrailingData"), ("get strings", "ok 1\ntitle A")], {})
run("a chunk stands behind the data, and there is no reservation", {"r.wav": plain(1, 2, 3, behind=NOTE)}, [OPEN, ("promote", ROOM)], {})
JUNK = chunk(b"JUNK", bytes(28))
FORMAT = chunk(b"fmt ", kinds.format_body("pcm_16_le", 1, RATE))


def wave_of(body):
    """A WAVE file of these chunks."""
    return b"RIFF" + struct.pack("<I", 4 + len(body)) + b"WAVE" + body


NO_RESERVATION = [
    ("of 27 bytes", wave_of(chunk(b"JUNK", bytes(27)) + FORMAT + chunk(b"data", of(1, 2, 3)))), ("of 24 bytes", wave_of(chunk(b"JUNK", bytes(24)) + FORMAT + chunk(b"data", of(1, 2, 3)))),
    ("of no bytes", wave_of(chunk(b"JUNK", b"") + JUNK + FORMAT + chunk(b"data", of(1, 2, 3)))), ("in small letters", wave_of(chunk(b"junk", bytes(28)) + FORMAT + chunk(b"data", of(1, 2, 3)))),
    ("of another filler", wave_of(chunk(b"FLLR", bytes(28)) + FORMAT + chunk(b"data", of(1, 2, 3)))), ("of padding", wave_of(chunk(b"PAD ", bytes(28)) + FORMAT + chunk(b"data", of(1, 2, 3)))),
    ("behind the format", wave_of(FORMAT + JUNK + chunk(b"data", of(1, 2, 3)))), ("behind a chunk", wave_of(NOTE + JUNK + FORMAT + chunk(b"data", of(1, 2, 3)))),
    ("behind the data", wave_of(FORMAT + chunk(b"data", of(1, 2, 3)) + JUNK)), ("named `ds64`", wave_of(chunk(b"ds64", bytes(28)) + FORMAT + chunk(b"data", of(1, 2, 3)))),
]
for what, content in NO_RESERVATION:
    run(f"no reservation: one {what}", {"r.wav": content}, [OPEN, ("promote", ROOM), ("auto on", "ok 3"), ("promote", ROOM)], {})
for kind, codecs in kinds.HOLDS.items():
    if kind != "wave":
        run(f"no reservation in {kind}", {"n": kinds.whole_file(kind, codecs[0], 1, RATE, [1, 2, 3])}, [("open u n", line_of(3, codecs[0], 1, kind)), ("promote", ROOM)], {})
adpcm = blocks.whole_file("wave", "ima", 1, RATE, [5])
adpcm = adpcm[:4] + struct.pack("<I", len(adpcm) - 8 + 36) + adpcm[8:12] + JUNK + adpcm[12:]
run("ADPCM behind what would be a reservation", {"n": adpcm}, [("open u n", "error 20 AdpcmUpdate"), ("promote", "error 42 NotOpen"), ("open r n", line_of(1, "ima")), ("promote", WRONG_MODE)], {})
# what stands behind the first 28 bytes stays there; no other program reads a `ds64` of odd size
for room in (b"r" * 28, bytes(29), b"s" * 30, b"t" * 64, b"u" * 4096):
    run(f"a reservation of {len(room)} bytes", {"r.wav": kept(1, 2, 3, pieces=TITLE, room=room)}, [OPEN, ("auto on", "ok 3"), ("promote", "ok 3"), ("seek w 3", "ok 3"), ("write 4", "ok 1"), ("get strings", "ok 1\ntitle A")],
        {"r.wav": promoted(kept(1, 2, 3, 4, pieces=TITLE, room=room))})
# the most chunks that are passed over: the reservation, the format, and 254 others
FULL = kept(1, 2, 3, pieces=chunk(b"abcd", b"\1") * 254)
run("a reservation before 255 chunks", {"r.wav": FULL}, [OPEN, ("promote", "ok 3"), ("close", "ok 3"), ("open u r.wav", line_of(3, kind="rf64")), ("get chunk abcd", "ok 1 01")], {"r.wav": promoted(FULL)})
# the size of the data lies in two sectors, so the count is not kept right against a power cut; that of `ds64` is
SPLIT = kept(1, 2, 3, pieces=chunk(b"abcd", bytes(426)))
run("a size of the data in two sectors", {"r.wav": SPLIT}, [OPEN, ("auto on", "error 27 Straddle"), ("promote", "ok 3"), ("auto on", "ok 3"), ("seek w 3", "ok 3"), ("write 4", "ok 1")],
    {"r.wav": promoted(kept(1, 2, 3, 4, pieces=chunk(b"abcd", bytes(426))))})
run("a size of the data in two sectors, pinned", {"r.wav": SPLIT}, [(None, line_of(3)), (None, "error 27 Straddle")], {}, ("script", "--auto", "r.wav"))
# sizes that are wrong are put right by a promotion, and bytes that no size counts stay behind
ONE = kept(1, 2, 3)
run("a size of the whole that is 0", {"r.wav": ONE[:4] + bytes(4) + ONE[8:]}, [OPEN, ("promote", "ok 3")], {"r.wav": promoted(ONE)})
run("bytes behind the end", {"r.wav": ONE + b"loose"}, [OPEN, ("promote", "ok 3"), ("close", "ok 3"), ("open r r.wav", line_of(3, kind="rf64")), ("read 9", "ok 3\n1\n2\n3")], {"r.wav": promoted(ONE) + b"loose"})
run("bytes behind the end that are trimmed", {"r.wav": ONE + b"loose"}, [OPEN, ("promote", "ok 3"), ("trim", "ok 3")], {"r.wav": promoted(ONE)})
run("a size of the data past the end", {"r.wav": ONE[:76] + NONE + ONE[80:]}, [OPEN, ("promote", "ok 3"), ("seek w 3", "ok 3"), ("write 4", "ok 1")], {"r.wav": promoted(kept(1, 2, 3, 4))})
odd = reserved("pcm_u8", 1, coded("pcm_u8", [1, 2, 3]))
run("a pad behind an odd number of bytes", {"r.wav": odd}, [("open u r.wav", line_of(3, "pcm_u8")), ("promote", "ok 3"), ("close", "ok 3"), ("open u r.wav", line_of(3, "pcm_u8", kind="rf64")), ("seek w 3", "ok 3"), ("write 4", "ok 1")],
    {"r.wav": promoted(reserved("pcm_u8", 1, coded("pcm_u8", [1, 2, 3, 4])))})
run("a pad that is missing", {"r.wav": odd[:-1]}, [("open u r.wav", line_of(3, "pcm_u8")), ("promote", "ok 3")], {"r.wav": promoted(odd)})
run("chunks and texts are told as before", {"r.wav": kept(1, 2, 3, pieces=ALL)}, [
    OPEN, ("promote", "ok 3"), ("get chunks", "ok 4\nLIST 14\nabcd 1\ncue_ 28\nbext 602"), ("get strings", "ok 1\ntitle A"), ("get cues", "ok 1\n1 7"), ("get chunk abcd", "ok 1 01"),
    ("get bext", "ok 7\ndescription \noriginator X\norig-ref \norig-date \norig-time \ntime-ref 0\ncoding-hist ")], {"r.wav": promoted(kept(1, 2, 3, pieces=ALL))})

# ---- the tools: a reservation is a filler to them, and they make none
TOOLS = [("convert", "r.wav", "n.wav"), ("convert", "q.rf64", "n.wav"), ("metadata-set", "--str-title", "A", "r.wav", "n.wav"), ("interleave", "r.wav", "q.rf64", "-o", "n.wav"), ("concat", "r.wav", "q.rf64", "n.wav"), ("convert", "r.wav", "n.rf64")]
both = of(1, 1, 2, 2, 3, 3)
MADE = [plain(1, 2, 3, pieces=ABCD), plain(1, 2, 3, pieces=ABCD), plain(1, 2, 3, pieces=ABCD + TITLE), kinds.riff("wave", "pcm_16_le", 2, RATE, both), plain(1, 2, 3, 1, 2, 3), kinds.riff("rf64", "pcm_16_le", 1, RATE, of(1, 2, 3), ABCD)]
given = {"r.wav": kept(1, 2, 3, pieces=ABCD), "q.rf64": promoted(kept(1, 2, 3, pieces=ABCD))}
for words, made in zip(TOOLS, MADE):
    put(given)
    wrong = ended(finished([program, *words]), f"ok {6 if words[0] == 'concat' else 3}\n".encode(), b"", 0)
    cases.case(" ".join(words), wrong + wrong_files({**given, words[-1]: made}))
put(given)
said = text_of(line for name in given for line in kinds.stated(given[name]).lines(name))
cases.case("info of a reserved file and of a promoted one", ended(finished([program, "info", *given]), said, b"", 0) + wrong_files(given))

# ---- the calls of a promotion: the seal; the first 48 bytes; the size of 32 bits; each with its sync
SKIPPED = 0
if has("promotions", "strace", "the calls of a promotion"):
    start_at, first = 80, LONGER[:20] + struct.pack("<QQQI", 76, 4, 2, 0)
    SEAL = [("sync",), ("put", start_at - 4, struct.pack("<I", 4)), ("sync",), ("put", 4, struct.pack("<I", 76)), ("sync",)]
    SEALED = [("sync",), ("put", 28, struct.pack("<Q", 6)), ("sync",), ("put", 20, struct.pack("<Q", 78)), ("put", 36, struct.pack("<Q", 3)), ("sync",)]
    TURN = [("put", 0, first), ("sync",), ("put", start_at - 4, NONE), ("sync",)]
    GROW = [("put", start_at + 4, of(5)), *SEALED]
    said = [("say", f"{it}\n".encode()) for it in (line_of(2), "ok 2", "ok 2", "ok 2", "ok 1", "ok 3")]
    for what, lines, wanted in (
            ("automatic", ["open u r.wav", "auto on", "promote", "seek w 2", "write 5", "close"], [said[0], *SEAL, said[1], *SEAL, *TURN, said[2], said[3], *GROW, said[4], *SEALED, said[5]]),
            ("not automatic", ["open u r.wav", "promote", "promote", "seek w 2", "write 5", "close"], [said[0], *SEAL, *TURN, said[1], ("say", f"{ROOM}\n".encode()), said[3], GROW[0], said[4], *SEALED, said[5]])):
        put({"r.wav": kept(1, -1)})
        done, events = traced(program, ["script"], lines, b"r.wav")
        os.remove("trace.txt")
        cases.case(f"the calls of a promotion, {what}", ([] if events == wanted else [f"{events}"]) + wrong_files({"r.wav": LONGER}))
else:
    SKIPPED += 2

# ---- what other programs read
readers = Readers("promotions")


def wrong_readings(name, content):
    """What is wrong with what `info` and the other programs say of a file, and decode of it."""
    it = kinds.stated(content)
    numbers = kinds.numbers_of(it.codec, it.data)
    wrong = ended(finished([program, "info", name]), text_of(it.lines(name)), b"", 0)
    for tool, told in readers.said(name, it).items():
        wrong += [f"{tool} says {told}, and the file {[it.channels, it.rate, it.frames]}"] * (told != [it.channels, it.rate, it.frames])
    for tool, decoded in readers.decoded(name, it).items():
        wrong += [f"{tool} {fault}" for fault in other_numbers(decoded, numbers)]
    rows = [" ".join(map(str, numbers[i:i + it.channels])) for i in range(0, len(numbers), it.channels)]
    return wrong + wrong_run([(f"open r {name}", f"ok {it.frames} {it.channels} {it.rate} {it.kind} {it.codec}"), ("read 1024", "\n".join([f"ok {len(rows)}", *rows])), ("close", f"ok {it.frames}")])


dice = random.Random("promotions")
SHAPES = [("no further chunk", codec, channels, b"", 28) for codec in kinds.HOLDS["wave"] for channels in (1, 2)]
# (in RF64 libsndfile passes over no pad byte behind an odd chunk that it does not know)
EVEN = TITLE + chunk(b"abcd", b"\1\2") + CUE + EXTENSION
SHAPES += [("chunks", codec, 2, EVEN, 28) for codec in kinds.HOLDS["wave"]] + [("a reservation of 64 bytes", codec, 1, TITLE, 64) for codec in ("pcm_16_le", "pcm_24_le", "ulaw")]
for what, codec, channels, pieces, size in SHAPES:
    # an odd number, so that there is a pad where there can be one
    old, more = dice.randbytes(channels * kinds.size(codec) * 501), dice.randbytes(channels * kinds.size(codec) * 200)
    shape = {"pieces": pieces, "room": bytes(size)}
    before, after = reserved(codec, channels, old, **shape), reserved(codec, channels, old + more, **shape, count=501)
    found = {"reserved": before, "between": between(before), "promoted": promoted(before), "longer": promoted(after)}
    for stage, content in found.items():
        put({"a.wav": content})
        try:
            wrong = wrong_readings("a.wav", content)
        except (subprocess.CalledProcessError, TypeError, ValueError) as error:
            wrong = [f"{error!r}"]
        cases.case(f"{stage}: {what}, {channels} times {codec}", wrong)
    # and these are what the program makes of them
    numbers = kinds.numbers_of(codec, more)
    lines = [("promote", "ok 501"), ("seek w 501", "ok 501"), (f"write {' '.join(map(str, numbers[:200 * channels // 2]))}", "ok 100"), (f"write {' '.join(map(str, numbers[200 * channels // 2:]))}", "ok 100")]
    after = reserved(codec, channels, old + coded(codec, numbers), **shape, count=501)
    run(f"made: {what}, {channels} times {codec}", {"a.wav": before}, [(None, line_of(501, codec, channels)), (None, "ok 501"), *lines], {"a.wav": promoted(after)}, ("script", "--auto", "a.wav"))

FFMPEG = {"pcm_u8": "pcm_u8", "pcm_16_le": "pcm_s16le", "pcm_24_le": "pcm_s24le", "pcm_32_le": "pcm_s32le", "ulaw": "pcm_mulaw", "alaw": "pcm_alaw"}
if readers.tools["ffmpeg"]:
    for codec in kinds.HOLDS["wave"]:
        for channels in (1, 2):
            put({"source.wav": kinds.riff("wave", "pcm_32_le", channels, RATE, dice.randbytes(4 * channels * 501))})
            out_of("ffmpeg", "-v", "error", "-y", "-i", "source.wav", "-metadata", "title=bell", "-c:a", FFMPEG[codec], "-rf64", "auto", "theirs.wav")
            theirs = held()["theirs.wav"]
            start_at, many, _ = parts(theirs)
            numbers = [5, -5, 7] * channels
            ours = promoted(with_data(theirs, theirs[start_at:start_at + many] + coded(codec, numbers)))
            put({"theirs.wav": theirs})
            wrong = wrong_run([("open u theirs.wav", line_of(501, codec, channels)), ("promote", "ok 501"), ("get strings", f"ok 2\ntitle bell\n{kinds.stated(theirs).texts[1]}"), ("seek w 501", "ok 501"),
                               (f"write {' '.join(map(str, numbers))}", "ok 3"), ("close", "ok 504")]) + wrong_files({"theirs.wav": ours})
            try:
                wrong += wrong_readings("theirs.wav", ours)
            except (subprocess.CalledProcessError, TypeError, ValueError) as error:
                wrong.append(f"{error!r}")
            cases.case(f"ffmpeg's file, {channels} times {codec}", wrong)
else:
    SKIPPED += 12

# ---- past 4 GiB: a file that is full, whose data are a hole in the disk
MOST, FRAMES = 4294967222, 2147483611


def byte_at(at, count):
    with open("big.wav", "rb") as file:
        file.seek(at)
        return file.read(count)


def says(frames):
    """What is wrong with the count that other programs tell, of those that need not read the frames for it."""
    found = {}
    # (with more than 2^32 bytes of them sox reads all that stands behind)
    if readers.tools["sox"] and 2 * frames < 2**32:
        found["soxi"] = int(out_of("soxi", "-s", "big.wav"))
    if readers.tools["ffmpeg"]:
        text = out_of("ffprobe", "-v", "error", "-show_entries", "stream=duration_ts", "-of", "default=noprint_wrappers=1:nokey=1", "big.wav")
        found["ffprobe"] = int(text)
    return [f"{tool} counts {it} frames for {frames}" for tool, it in found.items() if it != frames]


def at_most_one_megabyte():
    size = 512 * os.stat("big.wav").st_blocks
    return [f"the hole was filled: {size} bytes are on the disk"] * (size > 1_000_000)


put({"big.wav": b"RIFF" + bytes.fromhex("feffffff") + b"WAVE" + JUNK + FORMAT + b"data" + bytes.fromhex("b6ffffff")})
os.truncate("big.wav", 80 + MOST)
before = byte_at(0, 80)
wrong = wrong_run([("open u big.wav", line_of(FRAMES)), ("auto on", f"ok {FRAMES}"), (f"seek w {FRAMES}", f"ok {FRAMES}"), ("write 1", "error 26 ContainerFull"), ("promote", f"ok {FRAMES}"), ("write 1 2", "ok 2"),
                   ("info", line_of(FRAMES + 2, kind="rf64")), (f"seek r {FRAMES}", f"ok {FRAMES}"), ("read 2", "ok 2\n1\n2")])
wrong += first_difference("the head", byte_at(0, 80), b"RF64" + NONE + b"WAVEds64\x1c\0\0\0" + bytes.fromhex("0200000001000000baffffff00000000ddffff7f00000000") + bytes(4) + before[48:76] + NONE)
wrong += first_difference("the end", byte_at(80 + MOST - 4, 100), bytes(4) + of(1, 2))
cases.case("a file that is full is promoted, and goes on", wrong + says(FRAMES + 2) + at_most_one_megabyte())
rest = " ".join(str(i) for i in range(3, 21))
wrong = wrong_run([(None, line_of(FRAMES + 2, kind="rf64")), (None, f"ok {FRAMES + 2}"), ("promote", ROOM), (f"seek w {FRAMES + 2}", f"ok {FRAMES + 2}"), (f"write {rest}", "ok 18"), (f"seek r {FRAMES}", f"ok {FRAMES}"),
                   ("read 99", "\n".join(["ok 20", *map(str, range(1, 21))]))], ("script", "--auto", "big.wav"))
wrong += first_difference("the sizes", byte_at(20, 28), struct.pack("<QQQI", 80 + MOST + 40 - 8, MOST + 40, FRAMES + 20, 0)) + first_difference("the end", byte_at(80 + MOST, 100), of(*range(1, 21)))
cases.case("and goes on, pinned", wrong + says(FRAMES + 20) + at_most_one_megabyte())
# no plain head has room for so much
wrong = ended(finished([program, "convert", "big.wav", "x.wav"]), b"", b"snd: x.wav: error 26 ContainerFull\n", 1) + ["x.wav was made"] * os.path.exists("x.wav")
cases.case("it is not converted to WAVE", wrong)
wrong = wrong_run([("open u big.wav", line_of(FRAMES + 20, kind="rf64")), ("truncate 2", "ok 2")]) + wrong_files({"big.wav": promoted(kept(0, 0))})
cases.case("and cut to its first frames", wrong)
# one frame below the most, by which the last one still fits
put({"big.wav": before[:4] + struct.pack("<I", 2**32 - 1 - 3) + before[8:76] + struct.pack("<I", MOST - 2)})
os.truncate("big.wav", 80 + MOST - 2)
wrong = wrong_run([("open u big.wav", line_of(FRAMES - 1)), (f"seek w {FRAMES - 1}", f"ok {FRAMES - 1}"), ("write 1 2", "error 26 ContainerFull"), ("write 1", "ok 1"), ("write 2", "error 26 ContainerFull"), ("close", f"ok {FRAMES}")])
cases.case("the last frame for which it has room", wrong + first_difference("the head", byte_at(0, 80), before) + first_difference("the end", byte_at(80 + MOST - 4, 9), of(0, 1)) + at_most_one_megabyte())
# a recorder that went on past the most: its sizes say that all is sound, up to the last one that they can state
MORE = 2147483647
put({"big.wav": b"RIFF" + NONE + before[8:76] + NONE})
os.truncate("big.wav", 80 + 2**32 + 99)
wrong = wrong_run([("open u big.wav", line_of(MORE)), ("auto on", f"ok {MORE}"), (f"seek w {MORE}", f"ok {MORE}"), ("write 1", "error 26 ContainerFull"), ("promote", f"ok {MORE}"), ("write 1", "ok 1"),
                   ("info", line_of(MORE + 1, kind="rf64"))])
wrong += first_difference("the head", byte_at(0, 80), b"RF64" + NONE + b"WAVEds64\x1c\0\0\0" + bytes.fromhex("480000000100000000000000010000000000008000000000") + bytes(4) + before[48:76] + NONE)
wrong += first_difference("the end", byte_at(80 + 2**32 - 4, 200), bytes(2) + of(1) + bytes(99))
cases.case("a file that says more than a head has room for", wrong + says(MORE + 1) + at_most_one_megabyte())
os.remove("big.wav")
KINDS = sum(map(len, kinds.HOLDS.values()))
cases.end(3 + KINDS + 4 + len(FRONTS) + len(OTHERS) + 6 + 10 + 2 + 10 + 2 + 36 + len(AMONG) + 3 + len(NO_RESERVATION) + 7 + 1 + 5 + 1 + 2 + 7 + 6 + 1 + 2 + 5 * len(SHAPES) + 12 + 6 - SKIPPED,
          f", {SKIPPED} skipped" if SKIPPED else "")
