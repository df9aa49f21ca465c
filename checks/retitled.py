#!/usr/bin/env -S python3 -B
"""`snd metadata-set` of the built program: WAVE and RF64 files with further chunks of every sort, some of which sndfile-metadata-set and
ffmpeg wrote, are copied with other texts and fields, and each file that is made is compared byte for byte with what it is to be;
sndfile-metadata-get and ffprobe read the texts back. What is refused changes nothing. Needs Python 3. Of the Debian packages
sndfile-programs and ffmpeg what is missing is skipped, with a line for each; a program that is there and fails is a failure."""
import json
import shutil
import struct
import subprocess

from lib import kinds, tool_runs
from lib.head import Cases, start
from lib.tool_runs import numbers

program = start()
cases = Cases("retitled")
OWN = (b"fmt ", b"fact", b"data", b"ds64", *kinds.FILLERS)
# the fields of the broadcast extension: the place and the size of each
FIELDS = {"description": (0, 256), "originator": (256, 32), "orig-ref": (288, 32), "orig-date": (320, 10), "orig-time": (330, 8), "time-ref": (338, 8)}
skipped = 0


def has(tool, count):
    """Whether a program is there; else so many cases are skipped."""
    global skipped
    if shutil.which(tool):
        return True
    print(f"skipped: {count} cases of retitled, {tool} is missing")
    skipped += count
    return False


def texts_of(body):
    """The texts of an INFO list by their identifiers, those of the table alone."""
    at, found = 4, {}
    while at + 8 <= len(body):
        id, many = body[at:at + 4], struct.unpack_from("<I", body, at + 4)[0]
        if id in kinds.TEXTS:
            found.setdefault(id, body[at + 8:at + 8 + many].split(b"\0")[0])
        at += 8 + many + many % 2
    return found


def list_with(body, settings):
    """The body of an INFO list with other texts, in the order of the table."""
    found = texts_of(body)
    ids = {key: id for id, key in kinds.TEXTS.items()}
    found.update({ids[key]: text.encode() for key, text in settings.items()})
    return b"INFO" + b"".join(kinds.chunk(id, found[id] + b"\0") for id in kinds.TEXTS if id in found)


def bext_with(body, settings):
    """The body of a broadcast extension with other fields."""
    body = bytearray(body or bytes(346) + b"\1\0" + bytes(254))
    for key, text in settings.items():
        if key == "coding-hist":
            body[602:] = text.encode()
        else:
            at, size = FIELDS[key]
            body[at:at + size] = struct.pack("<Q", int(text)) if key == "time-ref" else text.encode().ljust(size, b"\0")
    return bytes(body)


def placed(pieces, is_sort, piece):
    """The chunks with one in the place of the first of its sort, or behind them."""
    at = next((i for i, other in enumerate(pieces) if is_sort(*other)), len(pieces))
    return pieces[:at] + [piece] + pieces[at + 1:]


def copy_of(b, texts, fields):
    """The file that is to be made of the bytes of another."""
    it = kinds.stated(b)
    pieces = [(id, b[at:at + many]) for id, at, many in kinds.riff_chunks(b, "<") if id not in OWN and many <= 65536][:238]
    if fields:
        held = next((body for id, body in pieces if id == b"bext"), b"")
        pieces = placed(pieces, lambda id, body: id == b"bext", (b"bext", bext_with(held, fields)))
    if texts:
        is_list = lambda id, body: id == b"LIST" and body[:4] == b"INFO"
        held = next((body for id, body in pieces if is_list(id, body)), b"INFO")
        pieces = placed(pieces, is_list, (b"LIST", list_with(held, texts)))
    packed = b"".join(kinds.chunk(*piece) for piece in pieces)
    law = it.codec in kinds.LAWS
    # where the size of the data would lie in two sectors, a filler stands before it
    size_at = 12 + 8 + (18 if law else 16) + len(packed) + (12 if law else 0) + 4
    filler = kinds.chunk(b"JUNK", bytes(8)) if it.kind == "wave" and size_at // 512 != (size_at + 3) // 512 else b""
    data = kinds.coded(it.codec, kinds.numbers_of(it.codec, it.data))
    return it.frames, kinds.riff(it.kind, it.codec, it.channels, it.rate, data, packed + filler)


def retitled(name, source, texts, fields):
    """Copies a file with other texts; the copy is new.wav or new.rf64."""
    with open(source, "rb") as file:
        frames, wanted = copy_of(file.read(), texts, fields)
    target = f"new.{source.rsplit('.', 1)[1]}"
    options = [word for key, text in texts.items() for word in (f"--str-{key}", text)] + [word for key, text in fields.items() for word in (f"--bext-{key}", text)]
    cases.case(name, tool_runs.wrong_run(program, ["metadata-set", *options, source, target], f"ok {frames}\n".encode(), b"", 0, (target, wanted)))


def refused(words, err, status=1):
    shown = " ".join(word if len(word) < 80 else f"{word[:9]}.." for word in words)
    cases.case(shown, tool_runs.wrong_run(program, ["metadata-set", *words], b"", err.encode(), status))


def put(name, b):
    with open(name, "wb") as file:
        file.write(b)


TITLE, ALL = {"title": "Dawn chorus"}, {"title": "A", "artist": "B C", "comment": "d", "copyright": "e", "date": "2020", "album": "odd"}
BEXT = {"description": "wood, early", "originator": "snd", "orig-ref": "REF 0001", "orig-date": "2020-05-01", "orig-time": "04:55:12", "time-ref": "18446744073709551", "coding-hist": "A=PCM,F=8000"}
LISTED = b"INFO" + kinds.chunk(b"IART", b"Old\0") + kinds.chunk(b"IXYZ", b"no key\0") + kinds.chunk(b"INAM", b"Name\0") + kinds.chunk(b"INAM", b"Second\0")
PIECES = [(b"cue ", bytes(4)), (b"LIST", b"adtl" + kinds.chunk(b"labl", b"\1\0\0\0x\0")), (b"LIST", LISTED), (b"abcd", b"odd"), (b"LIST", b"INFO" + kinds.chunk(b"INAM", b"Other\0")),
          (b"bext", bext_with(b"", {"description": "d" * 256, "coding-hist": "h" * 1500})), (b"bext", bytes(602))]
packed = b"".join(kinds.chunk(*piece) for piece in PIECES)

# ---- every place that a chunk can have
for codec in ("pcm_16_le", "pcm_24_le", "ulaw"):
    data = kinds.coded(codec, numbers(codec, 20))
    put(f"plain-{codec}.wav", kinds.riff("wave", codec, 2, 44100, data))
    put(f"before-{codec}.wav", kinds.riff("wave", codec, 2, 44100, data, packed))
    put(f"behind-{codec}.wav", kinds.riff("wave", codec, 2, 44100, data, b"", packed))
    put(f"before-{codec}.rf64", kinds.riff("rf64", codec, 2, 44100, data, packed))
    for source in (f"plain-{codec}.wav", f"before-{codec}.wav", f"behind-{codec}.wav", f"before-{codec}.rf64"):
        for texts, fields in ((TITLE, {}), ({}, {"description": "x"}), (ALL, BEXT)):
            retitled(f"{source}: {len(texts)} texts, {len(fields)} fields", source, texts, fields)
# a head in which the size of the data would lie in two sectors
for size in range(440, 500, 7):
    put("moved.wav", kinds.riff("wave", "pcm_16_le", 1, 8000, bytes(4), kinds.chunk(b"abcd", bytes(size))))
    retitled(f"a filler, where it is wanted, behind {size} bytes", "moved.wav", TITLE, {})
# 239 chunks: the title stands behind the first 238, and is found behind them
put("many.wav", kinds.riff("wave", "pcm_16_le", 1, 8000, bytes(4), b"".join(kinds.chunk(b"n%03d" % i, b"") for i in range(239))))
retitled("238 chunks are kept", "many.wav", TITLE, {"originator": "o"})
put("large.wav", kinds.riff("wave", "pcm_16_le", 1, 8000, bytes(4), kinds.chunk(b"abcd", bytes(65537)) + kinds.chunk(b"efgh", bytes(65536))))
retitled("a chunk of 65537 bytes is left out", "large.wav", TITLE, {})

# ---- files of other programs, and what they read back
if has("sndfile-metadata-set", 2):
    subprocess.run(["sndfile-metadata-set", "--str-title", "First", "--str-artist", "Stays", "--bext-description", "stays", "--bext-originator", "old", "plain-pcm_16_le.wav", "sndfile.wav"], check=True, capture_output=True)
    retitled("a file of sndfile-metadata-set", "sndfile.wav", {"title": "Second"}, {"originator": "new"})
    got = subprocess.run(["sndfile-metadata-get", "--all", "new.wav"], check=True, capture_output=True, text=True).stdout
    said = {line.split(":", 1)[0].strip(): line.split(":", 1)[1].strip() for line in got.split("\n") if ":" in line}
    want = {"Name": "Second", "Artist": "Stays", "Description": "stays", "Originator": "new"}
    cases.case("sndfile-metadata-get reads it", [f"{key}: {said.get(key)!r} for {text!r}" for key, text in want.items() if said.get(key) != text])
if has("ffmpeg", 2):
    subprocess.run(["ffmpeg", "-v", "error", "-y", "-i", "plain-pcm_16_le.wav", "-metadata", "title=First", "-metadata", "artist=Stays", "ffmpeg.wav"], check=True)
    retitled("a file of ffmpeg", "ffmpeg.wav", {"title": "Second"}, {})
    got = subprocess.run(["ffprobe", "-v", "error", "-show_format", "-of", "json", "new.wav"], check=True, capture_output=True, text=True).stdout
    tags = json.loads(got)["format"].get("tags", {})
    cases.case("ffprobe reads it", [f"{key}: {tags.get(key)!r}" for key, text in (("title", "Second"), ("artist", "Stays")) if tags.get(key) != text])

# ---- what is refused changes nothing
put("a.au", kinds.whole_file("au", "pcm_16_be", 1, 8000, [1]))
put("list.wav", kinds.riff("wave", "pcm_16_le", 1, 8000, bytes(4), kinds.chunk(b"LIST", b"INFO" + b"INAM" + struct.pack("<I", 99))))
put("bext.wav", kinds.riff("wave", "pcm_16_le", 1, 8000, bytes(4), kinds.chunk(b"bext", bytes(601))))
put("both.wav", kinds.riff("wave", "pcm_16_le", 1, 8000, bytes(4), kinds.chunk(b"bext", bytes(601)) + kinds.chunk(b"LIST", b"INFO" + b"INAM" + struct.pack("<I", 99))))
put("long.wav", kinds.riff("wave", "pcm_16_le", 1, 8000, bytes(4), kinds.chunk(b"LIST", b"INFO" + kinds.chunk(b"ICMT", b"c" * 65520 + b"\0"))))
put("wide.wav", kinds.riff("wave", "pcm_16_le", 1, 8000, bytes(4), kinds.chunk(b"LIST", b"INFO" + kinds.chunk(b"ICMT", b"c" * 65600 + b"\0"))))
TITLED = ["--str-title", "B"]
REFUSED = [
    ([*TITLED, "plain-ulaw.wav", "plain-ulaw.wav"], "plain-ulaw.wav: error 50 SameName"), ([*TITLED, "no.wav", "x.wav"], "no.wav: error 56 MissingFile"),
    ([*TITLED, "a.au", "x.wav"], "a.au: error 30 NoChunks"), ([*TITLED, "list.wav", "x.wav"], "list.wav: error 61 BadInfo"),
    (["--bext-originator", "o", "bext.wav", "x.wav"], "bext.wav: error 63 BadBext"), ([*TITLED, "--bext-originator", "o", "both.wav", "x.wav"], "both.wav: error 63 BadBext"),
    ([*TITLED, "wide.wav", "x.wav"], "wide.wav: error 31 ChunkTooLarge"), ([*TITLED, "long.wav", "x.wav"], "x.wav: error 31 ChunkTooLarge"),
    (["--str-title", "t" * 1025, "plain-ulaw.wav", "x.wav"], "x.wav: error 64 TextTooLong"), (["--bext-orig-time", "123456789", "plain-ulaw.wav", "x.wav"], "x.wav: error 64 TextTooLong"),
    (["--bext-coding-hist", "h" * 1025, "plain-ulaw.wav", "x.wav"], "x.wav: error 64 TextTooLong"),
]
for words, text in REFUSED:
    refused(words, f"snd: {text}\n")
# an unchanged chunk is not judged
retitled("a damaged chunk that stays", "bext.wav", TITLE, {})
WORDS = [["plain-ulaw.wav", "x.wav"], [*TITLED, *TITLED, "plain-ulaw.wav", "x.wav"], ["--str-title", "", "plain-ulaw.wav", "x.wav"], ["--bext-time-ref", "x", "plain-ulaw.wav", "x.wav"],
         ["--str-genre", "g", "plain-ulaw.wav", "x.wav"], [*TITLED, "plain-ulaw.wav"]]
for words in WORDS:
    refused(words, "snd: bad words\n", 2)
refused([*TITLED, "plain-ulaw.wav", "./plain-ulaw.wav"], "", 3)
cases.end(36 + 9 + 2 + 4 - skipped + len(REFUSED) + 1 + len(WORDS) + 1, f", {skipped} skipped" if skipped else "")
