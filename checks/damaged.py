#!/usr/bin/env -S python3 -B
"""Files that are damaged or cut, of each kind. Each refusal of each kind comes for a small file that asks for it, and for one that
asks for all later ones too, since the lowest number is answered. Each prefix of a file of each kind is described and read, and
the answer is that of a short table, which comes from the places of the head's parts. Up to 256 chunks or blocks may stand before
the data. Needs Python 3."""
import os
import struct

from lib import kinds
from lib.head import Cases, changed, ended, finished, run, start, sums
from lib.kinds import chunk, voc_block, w64_chunk, w64_id

program = start()
cases = Cases("damaged")
NAMES = dict(enumerate("NotSound FloatRate ShortHeader BadField TooManyChunks NoFormat NoData LeadingBlock UnknownCodec FloatSamples BadChannels BadRate BadBits "
                       "BadAlign BlockTooLarge OtherCoefs PackedBody BadPair".split(), 1))


def ran(words, script, out, err, status):
    """The faults of a run, which may change no file."""
    return run(program, words, script.encode(), out.encode(), err.encode(), status)


def ended_so(words, out, err, status):
    """The faults of the streams and the status of a run."""
    return ended(finished([program, *words]), out.encode(), err.encode(), status)


def put(name, data):
    with open(name, "wb") as file:
        file.write(data)


def refused(what, data, number):
    """A file that is refused, by each call that opens one."""
    put("f", data)
    error = f"error {number} {NAMES[number]}\n"
    wrong = ran(["info", "f"], "", "", f"snd: f: {error}", 1)
    wrong += ran(["script"], "open r f\nopen u f\ninfo\n", error * 2 + "error 42 NotOpen\n", "", 1)
    cases.case(f"{what} is {number} {NAMES[number]}", wrong)


def lines_of(it, name):
    return "".join(f"{line}\n" for line in it.lines(name))


def accepted(what, data, it):
    """A file that is described so."""
    put("f", data)
    head = f"ok {it.frames} {it.channels} {it.rate} {it.kind} {it.codec}\n"
    cases.case(what, ran(["info", "f"], "", lines_of(it, "f"), "", 0) + ran(["script"], "open r f\nclose\n", f"{head}ok {it.frames}\n", "", 0))


# ---- refusals

def fmt(tag=1, channels=1, rate=8000, align=None, bits=16, more=b"", cut=None):
    align = channels * bits // 8 if align is None else align
    return (struct.pack("<HHIIHH", tag, channels, rate, rate * align % 2**32, align, bits) + more)[:cut]


def extensible(tag, last="000000001000800000aa00389b71", cut=40, **more):
    return fmt(0xFFFE, more=struct.pack("<HHIH", 22, 16, 0, tag) + bytes.fromhex(last), cut=cut, **more)


def ima(channels, align, each):
    return fmt(0x11, channels, align=align, bits=4, more=struct.pack("<HH", 2, each))


PAIRS = struct.pack("<14h", 256, 0, 512, -256, 0, 0, 192, 64, 240, 0, 460, -208, 392, -232)


def ms(channels, align, each, count=7, pairs=PAIRS):
    return fmt(2, channels, align=align, bits=4, more=struct.pack("<HHH", 32, each, count) + pairs)


# what is wrong with a `fmt ` body, by number; the later ones of a row go with the ones before
FORMATS = [
    (9, "a tag that is not known", fmt(0x55)), (9, "an extensible body of 39 bytes", extensible(1, cut=39)), (9, "other last bytes", extensible(1, "000000001000800000aa00389b72")),
    (9, "a sub-tag of ADPCM", extensible(2)), (9, "a tag that is not known, and no channels, rate and bits", fmt(0x55, 0, 0, 1, 12)),
    (10, "float samples", fmt(3, bits=32)), (10, "a sub-tag of float samples", extensible(3)), (10, "float samples, and no channels and rate", fmt(3, 0, 0, 1, 12)),
    (11, "no channels", fmt(channels=0)), (11, "257 channels", fmt(channels=257)), (11, "no channels, rate and bits", fmt(1, 0, 0, 1, 12)),
    (12, "no rate", fmt(rate=0)), (12, "no rate, 12 bits and another align", fmt(1, 1, 0, 1, 12)),
    (13, "12 bits", fmt(bits=12)), (13, "64 bits and another align", fmt(bits=64, align=1)),
    (14, "another align", fmt(align=4)), (14, "another align of a law", fmt(7, align=2, bits=8)), (14, "a short body of IMA ADPCM", ima(1, 256, 505)[:18]),
    (14, "another count of IMA ADPCM", ima(1, 256, 504)), (14, "an align of IMA ADPCM that is no multiple", ima(2, 260, 505)), (14, "a short body of MS ADPCM", ms(1, 256, 500)[:20]),
    (14, "another count of MS ADPCM", ms(1, 256, 501)), (14, "an align and a count that are large", ima(1, 40000, 14465)),
    (15, "a large block of IMA ADPCM", ima(1, 8196, 16385)), (15, "a large block of MS ADPCM with other pairs", ms(1, 8193, 16374, pairs=PAIRS[::-1])),
    (16, "a short body of pairs", ms(1, 256, 500)[:49]), (16, "six pairs", ms(1, 256, 500, 6)), (16, "other pairs", ms(1, 256, 500, pairs=PAIRS[:-1] + b"\0")),
    (16, "other pairs of three channels", ms(3, 24, 4, pairs=PAIRS[::-1])),
    (18, "IMA ADPCM of three channels", ima(3, 24, 9)), (18, "MS ADPCM of three channels", ms(3, 24, 4)),
]


def riff(id, *chunks, size=None):
    body = b"WAVE" + b"".join(chunks)
    return id + struct.pack("<I", len(body) if size is None else size) + body


def ds64(data=4, riff=100, table=0, many=28):
    return b"ds64" + struct.pack("<I", many) + struct.pack("<QQQI", riff, data, data // 2, table)[:max(many, 0)]


DATA = b"data\xff\xff\xff\xff" + bytes(4)
GOOD = chunk(b"fmt ", fmt())
for number, what, body in FORMATS + [(18, "IMA ADPCM", ima(1, 256, 505)), (18, "MS ADPCM", ms(2, 512, 500))]:
    refused(f"rf64: {what}", riff(b"RF64", ds64(), chunk(b"fmt ", body), DATA), number)
for number, what, body in FORMATS:
    refused(f"w64: {what}", w64_id(b"riff") + struct.pack("<Q", 200) + w64_id(b"wave") + w64_chunk(b"fmt ", body) + w64_chunk(b"data", bytes(4)), number)
    refused(f"wave: {what}", riff(b"RIFF", chunk(b"fmt ", body), chunk(b"data", bytes(4))), number)
refused("rf64: 47 bytes", riff(b"RF64", ds64(), GOOD, DATA)[:47], 3)
refused("rf64: 47 bytes without a ds64", riff(b"RF64", bytes(100))[:47], 3)
refused("rf64: another chunk before ds64", riff(b"RF64", GOOD, ds64(), DATA), 4)
refused("rf64: a ds64 of 27 bytes", riff(b"RF64", ds64(many=27), b"\0" + GOOD, DATA), 4)
refused("rf64: a ds64 that runs past the end", riff(b"RF64", b"ds64" + struct.pack("<I", 100) + bytes(28), GOOD, DATA), 4)
refused("rf64: a ds64 of 27 bytes, and no format and data", riff(b"RF64", ds64(many=27), bytes(1)).ljust(48, b"\0"), 4)
refused("rf64: no format", riff(b"RF64", ds64(), DATA), 6)
refused("rf64: a format of 15 bytes", riff(b"RF64", ds64(), chunk(b"fmt ", fmt(cut=15)), GOOD, DATA), 6)
refused("rf64: no format and data", riff(b"RF64", ds64()), 6)
refused("rf64: no data", riff(b"RF64", ds64(), GOOD), 7)
refused("rf64: no data, and float samples", riff(b"RF64", ds64(), chunk(b"fmt ", fmt(3, 0, 0))), 7)
refused("w64: no format", w64_id(b"riff") + struct.pack("<Q", 68) + w64_id(b"wave") + w64_chunk(b"data", bytes(4)), 6)
refused("w64: a format of 15 bytes", w64_id(b"riff") + struct.pack("<Q", 108) + w64_id(b"wave") + w64_chunk(b"fmt ", fmt(cut=15)) + w64_chunk(b"data", bytes(4)), 6)
refused("w64: a chunk of size 23", w64_id(b"riff") + struct.pack("<Q", 108) + w64_id(b"wave") + w64_id(b"abcd") + struct.pack("<Q", 23) + w64_chunk(b"fmt ", fmt()) + w64_chunk(b"data", bytes(4)), 6)
refused("w64: no data", w64_id(b"riff") + struct.pack("<Q", 80) + w64_id(b"wave") + w64_chunk(b"fmt ", fmt()), 7)
refused("w64: no data, and no channels", w64_id(b"riff") + struct.pack("<Q", 80) + w64_id(b"wave") + w64_chunk(b"fmt ", fmt(channels=0)), 7)
refused("w64: another id of wave", w64_id(b"riff") + struct.pack("<Q", 80) + b"wave" + bytes(12) + w64_chunk(b"fmt ", fmt()) + w64_chunk(b"data", bytes(4)), 1)
accepted("w64: a data size below 24", kinds.w64("pcm_u8", 1, 8000, b"").replace(struct.pack("<Q", 24), bytes(8)), kinds.Stated("w64", "pcm_u8", 1, 8000, b""))

for magic, order in ((b".snd", ">"), (b"dns.", "<")):
    def head(offset=24, many=4, encoding=3, rate=8000, channels=1):
        return magic + struct.pack(f"{order}5I", offset, many, encoding, rate, channels) + bytes(4)
    kind = {b".snd": "au", b"dns.": "dns"}[magic]
    for what, data, number in (
        ("23 bytes", head()[:23], 3), ("23 bytes and an offset of 23", head(23)[:23], 3), ("an offset of 23", head(23), 4), ("an offset of 0, and all other faults", head(0, 4, 8, 0, 0), 4),
        ("an offset past the end", head(29), 7), ("an offset past the end, and all other faults", head(2**32 - 1, 4, 8, 0, 0), 7), ("no encoding", head(encoding=0), 9),
        ("an encoding that is not known", head(encoding=8, channels=0, rate=0), 9), ("encoding 23", head(encoding=23), 9), ("encoding 28", head(encoding=28), 9), ("float samples", head(encoding=6), 10),
        ("double samples, and no channels and rate", head(encoding=7, channels=0, rate=0), 10), ("no channels", head(channels=0), 11), ("257 channels and no rate", head(channels=257, rate=0), 11), ("no rate", head(rate=0), 12)):
        refused(f"{kind}: {what}", data, number)
    accepted(f"{kind}: an offset at the end", head()[:24], kinds.Stated(kind, f"pcm_16_{'be' if kind == 'au' else 'le'}", 1, 8000, b""))


def nine(rate=8000, bits=8, channels=1, number=0, data=b"\x80"):
    return voc_block(9, struct.pack("<IBBH4x", rate, bits, channels, number) + data)


def eight(time=49536, codec=0, mode=1, cut=4):
    return voc_block(8, struct.pack("<HBB", time, codec, mode)[:cut])


VOC, ONE, TEXT = kinds.VOC, voc_block(1, b"\x83\0\x80"), voc_block(5, b"text\0")
for what, data, number in (
    ("25 bytes", VOC[:25], 3), ("a header of 25 bytes", VOC[:20] + struct.pack("<HHH", 25, 0x114, 0x111F) + nine(), 4), ("another check", VOC[:20] + struct.pack("<HHH", 26, 0x10A, 0x111F) + nine(), 4),
    ("another check, and nothing behind", VOC[:24] + b"\0\0", 4), ("257 blocks, and nothing behind", VOC + TEXT * 257, 5),
    ("256 blocks and one that is cut", VOC + TEXT * 256 + TEXT[:-1], 5), ("256 blocks and a type alone", VOC + TEXT * 256 + b"\x05", 5), ("256 blocks and a head that is cut", VOC + TEXT * 256 + b"\x05\1\0", 5),
    ("256 blocks and nothing behind", VOC + TEXT * 256, 7), ("256 blocks and a terminator", VOC + TEXT * 256 + b"\0", 7), ("255 blocks and a head that is cut", VOC + TEXT * 255 + b"\x05\1\0", 7), ("a block of type 9 with 11 bytes", VOC + voc_block(9, bytes(11)) + bytes(20), 6), ("a block of type 1 with 1 byte", VOC + voc_block(1, b"\x83") + bytes(20), 6),
    ("a lone type 9", VOC + b"\x09", 6), ("a lone type 1", VOC + b"\x01", 6), ("a head of type 9 that is cut", VOC + nine(0, 12, 3, 1, b"")[:15], 6), ("a head of type 1 that is cut", VOC + ONE[:5], 6),
    ("a type 8 of 3 bytes", VOC + eight(cut=3) + ONE, 6), ("two of type 8, the last of 3 bytes", VOC + eight() + eight(cut=3) + ONE, 6), ("nothing behind the header", VOC, 7), ("a terminator", VOC + b"\0", 7),
    ("blocks and a terminator", VOC + TEXT + eight() + b"\0" + nine(), 7), ("a block that runs past the end", VOC + TEXT[:-1], 7), ("a type alone", VOC + b"\x05", 7),
    ("a continuation", VOC + voc_block(2, b"\x80") + nine(), 8), ("silence", VOC + TEXT + voc_block(3, bytes(3)) + nine(), 8), ("a repeat", VOC + voc_block(6, bytes(2)) + nine(), 8), ("the end of a repeat", VOC + voc_block(7, b"") + nine(), 8),
    ("a continuation that is cut", VOC + b"\x02", 8), ("codec 1 of type 1", VOC + voc_block(1, b"\x83\1\x80"), 9), ("codec 1 of type 8, and mode 2", VOC + eight(codec=1, mode=2) + ONE, 9),
    ("codec 1 of type 9, and all other faults", VOC + nine(0, 12, 0, 1), 9), ("mode 2", VOC + eight(mode=2) + ONE, 11), ("no channels", VOC + nine(channels=0), 11), ("3 channels, no rate and 16 bits", VOC + nine(0, 16, 3), 11),
    ("no rate", VOC + nine(0), 12), ("no rate and 16 bits", VOC + nine(0, 16), 12), ("16 bits of codec 0", VOC + nine(bits=16), 13), ("8 bits of codec 4", VOC + nine(bits=8, number=4), 13)):
    refused(f"voc: {what}", data, number)
accepted("voc: a law whose bits are 16", VOC + nine(bits=16, number=7) + b"\0", kinds.Stated("voc", "ulaw", 1, 8000, b"\x80"))
accepted("voc: a type 8 of 3 bytes before a type 9", VOC + eight(cut=3) + nine() + b"\0", kinds.Stated("voc", "pcm_u8", 1, 8000, b"\x80"))
accepted("voc: a type 8, whose codec and mode count", VOC + eight() + voc_block(1, b"\0\1\x80\x80") + b"\0", kinds.Stated("voc", "pcm_u8", 2, 8000, b"\x80\x80"))
accepted("voc: the last of two of type 8", VOC + eight(codec=9) + eight(65536 - 32000, mode=0) + ONE + b"\0", kinds.Stated("voc", "pcm_u8", 1, 8000, b"\x80"))
accepted("voc: a rate that is rounded down", VOC + voc_block(1, b"\xd3\0\x80") + b"\0", kinds.Stated("voc", "pcm_u8", 1, 22222, b"\x80"))
accepted("voc: a header of 28 bytes", VOC[:20] + struct.pack("<HHH", 28, 0x10A, 0x1129) + b"\xff\xff" + nine() + b"\0", kinds.Stated("voc", "pcm_u8", 1, 8000, b"\x80"))

VHDR, BODY = kinds.voice_header(8000, 3), chunk(b"BODY", b"\1\2\3", ">")
STEREO = chunk(b"CHAN", struct.pack(">I", 6), ">")
for what, body, number in (
    ("no VHDR", BODY, 6), ("no VHDR and BODY", b"", 6), ("a VHDR of 19 bytes", chunk(b"VHDR", VHDR[8:27], ">") + VHDR + BODY, 6), ("a VHDR behind the BODY", BODY + b"" + VHDR, 6), ("no BODY", VHDR, 7),
    ("no BODY, and stereo", VHDR + STEREO, 7), ("a BODY head that is cut", VHDR + b"BODY\0\0\0", 7), ("stereo", VHDR + STEREO + BODY, 11), ("stereo, no rate and packed", kinds.voice_header(0, 3, 2, 1) + STEREO + BODY, 11),
    ("no rate", kinds.voice_header(0, 3) + BODY, 12), ("no rate and packed", kinds.voice_header(0, 3, 2, 1) + BODY, 12), ("packed", kinds.voice_header(8000, 3, 1, 1) + BODY, 17), ("two octaves", kinds.voice_header(8000, 3, 2) + BODY, 17)):
    refused(f"svx: {what}", kinds.form(body), number)
for what, body in (("no octaves", kinds.voice_header(8000, 3, 0) + BODY), ("left", VHDR + chunk(b"CHAN", struct.pack(">I", 2), ">") + BODY), ("a short CHAN", VHDR + chunk(b"CHAN", b"\0\6", ">") + BODY), ("stereo behind the BODY", VHDR + BODY + STEREO)):
    accepted(f"svx: {what}", kinds.form(body), kinds.Stated("svx", "pcm_s8", 1, 8000, b"\1\2\3"))


def sphere(changes={}, first=b"NIST_1A\n   1024\n", end="end_head\n", more=(), codec="pcm_16_le"):
    """A SPHERE file of two frames, with some lines of its head changed or left out."""
    lines = [changes.get(line.split(" ")[0], line) for line in kinds.sphere_lines(codec, 1, 8000, 2)]
    return kinds.sphere_head([line for line in lines if line] + list(more), first, end) + bytes(4)


FLOAT = {"sample_rate": "sample_rate -r 8000.0"}
for what, data, number in (
    ("a float rate", sphere(FLOAT), 2), ("a float rate, and all other faults", sphere(FLOAT | {"channel_count": "", "sample_coding": "sample_coding -s3 mp3"}, b"NIST_1A\n   2048\n"), 2), ("a float rate in 1023 bytes", sphere(FLOAT)[:1023], 3),
    ("a float rate without an end", sphere(FLOAT, end=""), 4), ("a float rate behind the end", sphere({"sample_rate": ""}, more=["end_head", "sample_rate -r 1.0"]), 6), ("1023 bytes", sphere()[:1023], 3),
    ("another size of the head", sphere(first=b"NIST_1A\n   2048\n"), 4), ("no end", sphere(end=""), 4), ("a name twice", sphere(more=["channel_count -i 1"]), 4), ("a name in another form", sphere({"channel_count": "channel_count -s1 1"}), 4),
    ("no digits", sphere({"channel_count": "channel_count -i x"}), 4), ("19 digits", sphere({"sample_count": "sample_count -i 0000000000000000002"}), 4), ("a rate of 2^32", sphere({"sample_rate": "sample_rate -i 4294967296"}), 4),
    ("a coding that is longer", sphere({"sample_coding": "sample_coding -s4 pcm"}), 4), ("a coding that is shorter", sphere({"sample_coding": "sample_coding -s2 pcm"}), 4), ("no order of bytes", sphere({"sample_byte_format": ""}), 4),
    ("another order of bytes", sphere({"sample_byte_format": "sample_byte_format -s2 00"}), 4), ("a name in another form, and no rate", sphere({"channel_count": "channel_count -s1 1", "sample_rate": ""}), 4),
    ("no count of channels", sphere({"channel_count": ""}), 6), ("no rate", sphere({"sample_rate": ""}), 6), ("no bytes", sphere({"sample_n_bytes": ""}), 6), ("no count of samples", sphere({"sample_count": ""}), 6),
    ("no rate, and all later faults", sphere({"sample_rate": "", "channel_count": "channel_count -i 0", "sample_coding": "sample_coding -s3 mp3"}), 6), ("another coding", sphere({"sample_coding": "sample_coding -s26 pcm,embedded-shorten-v2.00"}), 9),
    ("another coding, no channels and a rate of 0", sphere({"sample_coding": "sample_coding -s3 mp3", "channel_count": "channel_count -i 0", "sample_rate": "sample_rate -i 0"}), 9),
    ("channels of 0", sphere({"channel_count": "channel_count -i 0"}), 11), ("257 channels, and a rate of 0", sphere({"channel_count": "channel_count -i 257", "sample_rate": "sample_rate -i 0"}), 11), ("a rate of 0", sphere({"sample_rate": "sample_rate -i 0"}), 12),
    ("a rate of 0 and 3 bytes", sphere({"sample_rate": "sample_rate -i 0", "sample_n_bytes": "sample_n_bytes -i 3"}), 12), ("3 bytes", sphere({"sample_n_bytes": "sample_n_bytes -i 3"}), 13), ("2 bytes of a law", sphere({"sample_n_bytes": "sample_n_bytes -i 2"}, codec="ulaw"), 13)):
    refused(f"sphere: {what}", data, number)
for what, changes, codec in (("no coding", {"sample_coding": ""}, "pcm_16_le"), ("mu-law by its other name", {"sample_coding": "sample_coding -s6 mu-law"}, "ulaw"), ("no order of a law's bytes", {"sample_byte_format": ""}, "alaw"),
                             ("leading zeros", {"sample_rate": "sample_rate -i 000008000"}, "pcm_16_le"), ("a name that is not known, twice", {"sample_sig_bits": "other -i 1\nother -x"}, "pcm_16_le")):
    accepted(f"sphere: {what}", sphere(changes, codec=codec), kinds.Stated("sphere", codec, 1, 8000, bytes(2 * kinds.size(codec))))

# what is no sound at all
for what, data, number in (
    ("RIFX", b"RIFX\0\0\0\4WAVE", 1), ("RF64 without WAVE", b"RF64\0\0\0\4wave" + bytes(60), 1), ("16SV", b"FORM\0\0\0\x0416SV", 1), ("AIFC", b"FORM\0\0\0\4AIFC", 2), ("CAF", b"caff", 2), ("CAF that is cut", b"caf", 1), ("IRCAM", b"\x64\xa3\1\0" + bytes(40), 1),
    ("another end of the first line of VOC", b"Creative Voice File\x1b" + bytes(20), 1), ("a SPHERE without a line feed", b"NIST_1A\r" + bytes(1020), 1), ("an AU of a DEC machine", b"\0ds." + bytes(30), 1)):
    refused(what, data, number)


# ---- prefixes

def frames_from(start, each, many):
    """How many frames a prefix holds."""
    return lambda length: (min(length, start + each * many) - start) // each


EXTRA = b"note" + struct.pack("<I", 4) + b"kept"
PIECE = chunk(b"abcd", b"odd")
PREFIXES = {
    # the numbers below which an answer holds, from the front on, and the chunks with the length from which each is there
    "wave": (kinds.riff("wave", "ulaw", 1, 8000, b"\0\x40\xff", PIECE, EXTRA), "ulaw", 1, [(12, 1), (38, 6), (70, 7)], 70, 3, [("abcd 3", 0), ("note 4", 86)]),
    "rf64": (kinds.riff("rf64", "pcm_16_le", 2, 8000, bytes(range(12)), PIECE, EXTRA), "pcm_16_le", 2, [(12, 1), (48, 3), (72, 6), (92, 7)], 92, 3, [("abcd 3", 0), ("note 4", 116)]),
    "w64": (kinds.w64("alaw", 1, 8000, b"\0\1\2\3\4", behind=w64_chunk(b"note", b"kept")), "alaw", 1, [(40, 1), (82, 6), (144, 7)], 144, 5, []),
    "au": (kinds.au("au", "pcm_24_be", 2, 8000, bytes(range(18)), 30), "pcm_24_be", 2, [(4, 1), (24, 3), (30, 7)], 30, 3, []),
    "dns": (kinds.au("dns", "pcm_16_le", 1, 8000, bytes(range(6)), 24), "pcm_16_le", 1, [(4, 1), (24, 3)], 24, 3, []),
    "voc": (VOC + TEXT + voc_block(9, struct.pack("<IBBH4x", 8000, 16, 2, 4) + bytes(range(12))) + b"\0", "pcm_16_le", 2, [(20, 1), (26, 3), (36, 7), (51, 6)], 51, 3, []),
    "voc by types 8 and 1": (VOC + eight() + voc_block(1, b"\0\0" + bytes(range(6))) + b"\0", "pcm_u8", 2, [(20, 1), (26, 3), (35, 7), (40, 6)], 40, 3, []),
    "svx": (kinds.svx(8000, b"\1\2\3", chunk(b"NAME", b"odd", ">"), chunk(b"ANNO", b"kept", ">")), "pcm_s8", 1, [(12, 1), (40, 6), (60, 7)], 60, 3, [("NAME 3", 0), ("ANNO 4", 76)]),
    "sphere": (sphere(codec="alaw")[:1024] + b"\1\2", "alaw", 1, [(8, 1), (1024, 3)], 1024, 2, []),
}
for name, (whole, codec, channels, refusals, start, many, chunks) in PREFIXES.items():
    wrong, asked, replies = [], [], []
    count = frames_from(start, channels * kinds.size(codec), many)
    for length in range(len(whole) + 1):
        put(f"p{length}", whole[:length])
    # (one look at all files before and after, since there are many)
    before = sums()
    for length in range(len(whole) + 1):
        file = f"p{length}"
        number = next((number for below, number in refusals if length < below), None)
        asked += [f"open r {file}", "read 9", "close"]
        if number:
            replies += [f"error {number} {NAMES[number]}", "error 42 NotOpen", "error 42 NotOpen"]
            wrong += [f"{length} bytes: {it}" for it in ended_so(["info", file], "", f"snd: {file}: error {number} {NAMES[number]}\n", 1)]
            continue
        frames = count(length)
        data = whole[start:start + frames * channels * kinds.size(codec)]
        it = kinds.Stated(name.split(" ")[0], codec, channels, 8000, data)
        numbers = kinds.numbers_of(codec, data)
        replies += [f"ok {frames} {channels} 8000 {it.kind} {codec}", f"ok {frames}", *(" ".join(map(str, numbers[i:i + channels])) for i in range(0, len(numbers), channels)), f"ok {frames}"]
        listed = "".join(f"chunk {what}\n" for what, least in chunks if length >= least)
        wrong += [f"{length} bytes: {it}" for it in ended_so(["info", file], lines_of(it, file) + listed, "", 0)]
    wrong += ran(["script"], "".join(f"{line}\n" for line in asked), "".join(f"{line}\n" for line in replies), "", 1)
    wrong += changed(before, sums())
    for length in range(len(whole) + 1):
        os.remove(f"p{length}")
    cases.case(f"each of the {len(whole) + 1} prefixes of {name}", wrong)

# ---- 256 chunks or blocks, and one more

NONE = chunk(b"abcd", b"")
LISTED = [(b"abcd", 0)]


def limit(kind, make, before, it, behind=None):
    """256 chunks before the data and one more, where `before` of them are the kind's own; and the chunks behind that are listed."""
    it.rest = LISTED * (256 - before) if behind else []
    accepted(f"{kind}: 256 chunks before the data", make(256 - before, b""), it)
    refused(f"{kind}: 257 chunks before the data", make(257 - before, b""), 5)
    if behind:
        accepted(f"{kind}: 256 chunks before the data, and one behind", make(256 - before, behind), it)
        it.rest = LISTED * 3 + [(behind[:4], 0)] * (256 - before - 3)
        accepted(f"{kind}: 3 more chunks before the data, and 300 behind", make(3, behind * 300), it)


two = kinds.Stated
limit("rf64", lambda many, behind: kinds.riff("rf64", "pcm_u8", 1, 8000, b"\x80\x80", NONE * many, behind), 2, two("rf64", "pcm_u8", 1, 8000, b"\x80\x80"), chunk(b"note", b""))
limit("wave", lambda many, behind: kinds.riff("wave", "pcm_u8", 1, 8000, b"\x80\x80", NONE * many, behind), 1, two("wave", "pcm_u8", 1, 8000, b"\x80\x80"), chunk(b"note", b""))
limit("svx", lambda many, behind: kinds.svx(8000, b"\0\0", NONE * many, behind), 1, two("svx", "pcm_s8", 1, 8000, b"\0\0"), chunk(b"note", b""))
limit("w64", lambda many, _: kinds.w64("pcm_u8", 1, 8000, b"\x80\x80", w64_chunk(b"abcd", b"") * many), 1, two("w64", "pcm_u8", 1, 8000, b"\x80\x80"))
limit("voc", lambda many, _: VOC + TEXT * many + nine(data=b"\x80\x80") + b"\0", 0, two("voc", "pcm_u8", 1, 8000, b"\x80\x80"))
for kind, head, one, own in (("rf64", riff(b"RF64", ds64(), GOOD), NONE, 2), ("svx", kinds.form(VHDR), NONE, 1), ("w64", w64_id(b"riff") + bytes(8) + w64_id(b"wave") + w64_chunk(b"fmt ", fmt()), w64_chunk(b"abcd", b""), 1)):
    refused(f"{kind}: 256 chunks and no data", head + one * (256 - own), 7)
    refused(f"{kind}: 256 chunks and one that is cut", head + one * (256 - own) + one[:-1], 7)
    refused(f"{kind}: 257 chunks and no data", head + one * (257 - own), 5)
cases.end(287)
