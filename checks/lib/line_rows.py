"""The rows of the check `lines`: lines of scripts, words of command lines, and chunks of files, each with what the program is to answer. The replies
follow from README.md and docs/refusals.md; the bodies of chunks are those that other programs wrote, or are written out by hand. A text
stands for its bytes in Latin-1, and a reply of several lines has a line feed between them."""

BAD = "error 40 BadCommand"
TOO_LONG = "error 41 LineTooLong"
PAIR = "error 18 BadPair"

# ---- lines of scripts

# what stands in the folder: the kind, the codec, the rate and the numbers of each file, all of one channel
FILES = {
    "a.wav": ("wave", "pcm_u8", 8000, range(9)),
    "-a#": ("wave", "pcm_u8", 8000, (5, 6)),
    "long.wav": ("wave", "pcm_16_le", 8000, range(1100)),
    "a" * 255: ("wave", "pcm_u8", 8000, (7,)),
}
OPENED = "ok 9 1 8000 wave pcm_u8"
CREATED = "ok 0 1 8000 wave pcm_u8"
# what stands before a line, each with its reply
NOTHING = ()
READ = (("open r a.wav", OPENED),)
UPDATED = (("open u a.wav", OPENED),)
LONG = (("open r long.wav", "ok 1100 1 8000 wave pcm_16_le"),)
MADE = (("create wave pcm_u8 1 8000 n", CREATED),)
WIDE = (("create wave pcm_32_le 1 8000 n", "ok 0 1 8000 wave pcm_32_le"),)
VOICE = (("create svx pcm_s8 1 8000 n", "ok 0 1 8000 svx pcm_s8"),)
FIELDS = ("description", "originator", "orig-ref", "orig-date", "orig-time", "time-ref", "coding-hist")


def bext_lines(**texts):
    """The reply to `get bext`; where no number is given the time is 0."""
    texts = {"time-ref": "0"} | {key.replace("_", "-"): text for key, text in texts.items()}
    return "\n".join(["ok 7", *(f"{key} {texts.get(key, '')}" for key in FIELDS)])


def bytes_line(body):
    return f"ok {len(body)} {body.hex()}"


def frames_lines(numbers):
    return "\n".join(map(str, [f"ok {len(numbers)}", *numbers]))


# an originator, version 1, and zeros elsewhere
BEXT_OF_X = bytes(256) + b"X" + bytes(89) + b"\1" + bytes(255)
INFO_OF_A = b"INFOINAM\2\0\0\0A\0"

# The line, what stands before it, its reply (none where it says nothing), and lines behind it that show what it did.
LINES = (
    # files; that each kind takes the words of its codecs, `edits` shows
    ("open r a.wav", NOTHING, OPENED, (("write 1", "error 44 WrongMode"), ("read 2", "ok 2\n0\n1"))),
    ("  open   u  -a#  ", NOTHING, "ok 2 1 8000 wave pcm_u8", (("seek w 2", "ok 2"), ("read 2", "ok 2\n5\n6"))),
    ("create wave pcm_u8 1 8000 a", NOTHING, CREATED, ()),
    ("create rf64 pcm_s8 1 8000 a", NOTHING, PAIR, ()),
    ("create w64 pcm_16_le 01 8000 a", NOTHING, "ok 0 1 8000 w64 pcm_16_le", ()),
    ("create au pcm_16_be 1 8000 a", NOTHING, "ok 0 1 8000 au pcm_16_be", ()),
    ("create dns pcm_24_le 1 8000 a", NOTHING, "ok 0 1 8000 dns pcm_24_le", ()),
    ("create voc pcm_24_be 1 8000 a", NOTHING, PAIR, ()),
    ("create svx pcm_32_le 1 8000 a", NOTHING, PAIR, ()),
    ("create sphere pcm_32_be 1 8000 a", NOTHING, PAIR, ()),
    ("create wave ulaw 1 8000 a", NOTHING, "ok 0 1 8000 wave ulaw", ()),
    ("create wave alaw 1 8000 a", NOTHING, "ok 0 1 8000 wave alaw", ()),
    ("create wave ima 1 8000 a", NOTHING, "ok 0 1 8000 wave ima", ()),
    ("create wave ms 1 8000 ~", NOTHING, "ok 0 1 8000 wave ms", ()),
    ("info", READ, OPENED, ()),
    (" close ", READ, "ok 9", (("info", "error 42 NotOpen"),)),
    ("trim", UPDATED, "ok 9", ()),
    ("update", UPDATED, "ok 9", ()),
    # frames
    ("seek r 0", (*READ, ("seek r 3", "ok 3")), "ok 0", (("read 1", "ok 1\n0"),)),
    ("seek w 007", UPDATED, "ok 7", ()),
    ("seek rw 9223372036854775807", UPDATED, "error 24 SeekRange", ()),
    ("read 0", READ, "ok 0", (("read 1", "ok 1\n0"),)),
    ("read 1024", LONG, frames_lines(range(1024)), ()),
    ("read 0000000000000001024", LONG, frames_lines(range(1024)), ()),
    ("truncate 3", (*MADE, ("write 1 2 3 4", "ok 4")), "ok 3", (("info", "ok 3 1 8000 wave pcm_u8"),)),
    ("auto on", MADE, "ok 0", (("set chunk abcd -", "error 32 AutoOn"),)),
    ("auto off", (*MADE, ("auto on", "ok 0")), "ok 0", (("set chunk abcd -", "ok"),)),
    ("tap peak", READ, "ok", (("untap peak", "ok peak 0 0"),)),
    ("tap clips", READ, "ok", (("untap clips", "ok clips 0 0"),)),
    ("untap energy", (*READ, ("tap energy", "ok")), "ok energy 0 0", (("untap energy", "error 45 NoSuchTap"),)),
    ("write -2147483648 2147483647 -0  -0000000007", WIDE, "ok 4",
     (("close", "ok 4"), ("open r n", "ok 4 1 8000 wave pcm_32_le"), ("read 4", "ok 4\n-2147483648\n2147483647\n0\n-7"))),
    # chunks
    ("set chunk cue_ 0aff", MADE, "error 29 ReservedChunk", (("get chunks", "ok 0"),)),
    ("set chunk cue_ 0aff", VOICE, "ok", (("get chunks", "ok 1\ncue_ 2"), ("get chunk cue_", "ok 2 0aff"))),
    ("set chunk !~ab -", MADE, "ok", (("get chunks", "ok 1\n!~ab 0"), ("get chunk !~ab", "ok 0"))),
    ("set string title A", MADE, "ok", (("get strings", "ok 1\ntitle A"), ("get chunk LIST", bytes_line(INFO_OF_A)))),
    (" set  string  track  A\tb \xff ", MADE, "ok", (("get strings", "ok 1\ntrack  A?b ?"), ("get chunk LIST", bytes_line(b"INFOITRK\7\0\0\0 A\tb \xff\0\0")))),
    ("set bext originator X  Y", MADE, "ok", (("get bext", bext_lines(originator="X  Y")),)),
    ("set bext time-ref 05", MADE, "ok", (("get bext", bext_lines(time_ref="5")),)),
    ("set cue 5 4294967295", MADE, "ok", (("get cues", "ok 2\n1 5\n2 4294967295"),)),
    ("get chunk bext", (*MADE, ("set bext originator X", "ok")), bytes_line(BEXT_OF_X), ()),
    ("get chunks", (*MADE, ("set bext originator X", "ok")), "ok 1\nbext 602", ()),
    ("get strings", (*MADE, ("set string title A", "ok")), "ok 1\ntitle A", ()),
    ("get bext", (*MADE, ("set bext originator X", "ok")), bext_lines(originator="X"), ()),
    ("get cues", (*MADE, ("set cue 5", "ok")), "ok 1\n1 5", ()),
    # lines that say nothing, and the longest ones
    ("", NOTHING, "", ()),
    ("  ", NOTHING, "", ()),
    ("#", NOTHING, "", ()),
    ("  # open", NOTHING, "", ()),
    ("#\t", NOTHING, "", ()),
    (" " * 4096, NOTHING, "", ()),
    (" " * 4097, NOTHING, TOO_LONG, ()),
    ("write" + " 7" * 2045 + " ", MADE, "ok 2045",
     (("close", "ok 2045"), ("open r n", "ok 2045 1 8000 wave pcm_u8"), ("read 1024", frames_lines([7] * 1024)), ("read 1024", frames_lines([7] * 1021)))),
    ("write" + " 7" * 2046, MADE, TOO_LONG, (("info", CREATED),)),
    ("open r " + "a" * 255, NOTHING, "ok 1 1 8000 wave pcm_u8", (("read 1", "ok 1\n7"),)),
    ("open r " + "a" * 256, NOTHING, BAD, ()),
    ("set cue" + " 7" * 100, MADE, "ok", (("get cues", "\n".join(["ok 100", *(f"{i + 1} 7" for i in range(100))])),)),
    ("set cue" + " 7" * 101, MADE, BAD, (("get cues", "error 34 NoSuchChunk"),)),
)

# Lines that have the form of no command, with a file open and with none.
REFUSED = (
    "open r", "open r a b", "open w a", "open a", "Open r a", "\topen r a", "open r\ta", "open r a\r", "info\r", "info x", "open r \x7f", "open u \xc3\xa9", "open r a\x1f",
    "create wave pcm_16 1 8000 a", "create mp3 ulaw 1 8000 a", "create wave ulaw 1 a", "create wave ulaw -1 8000 a", "create wave ulaw 1 8000 a b",
    "seek r", "seek r 1 2", "seek wr 1", "seek r 9223372036854775808", "seek r 00000000000000000000", "seek r -1", "seek r +1", "seek r 1.",
    "read", "read 1025", "read 18446744073709551617", "read 0x1", "truncate", "trim 1", "auto", "auto yes", "auto on on", "tap", "tap Peak", "untap peak peak",
    "write", "write 2147483648", "write -2147483649", "write 00000000001", "write -", "write --1", "write +1", "write 1,2",
    "set", "set chunk abc 00", "set chunk abcd 0", "set chunk abcd 0A", "set chunk abcd", "set chunk ab\x7fd 00",
    "set string title", "set string title ", "set string Title A", "set string title A\0", "set bext time-ref  5", "set bext time-ref x", "set cue", "set cue 4294967296",
    "get", "get chunk", "get chunks 1", "x",
)

# ---- words of command lines

DESCRIBED = "name {}\nkind wave\ncodec pcm_u8\nchannels 1\nrate 8000\nframes {}\nduration 00:00:00.00{}\n"
BAD_WORDS = "snd: bad words\n"
# The words, the status, standard output and standard error, and what a script says of the file that is made, which the last word names.
# What `gen` makes stands in `joins`; here a name in a folder that is not there shows that its largest numbers are taken.
WORDS = (
    (("info", "a.wav", "b.wav"), 0, DESCRIBED.format("a.wav", 9, 1) + DESCRIBED.format("b.wav", 2, 0), "", ()),
    (("--help", "--version"), 2, "", BAD_WORDS, ()),
    (("convert", "-pcm24", "-endian=big", "-override-sample-rate=048000", "a.au", "b.wav"), 1, "", "snd: b.wav: error 18 BadPair\n", ()),
    (("convert", "-pcm24", "-endian=big", "-override-sample-rate=048000", "a.au", "b.au"), 0, "ok 3\n", "", (("open r b.au", "ok 3 1 48000 au pcm_24_be"), ("read 3", "ok 3\n256\n512\n768"))),
    (("convert", "-ulaw", "-alaw", "a", "b"), 2, "", BAD_WORDS, ()),
    (("gen", "4294967295", "10000000", "no/a"), 3, "", "", ()),
    (("metadata-set", "--str-title", "--x y", "--bext-time-ref", "7", "--bext-orig-ref", "r", "a", "n"), 0, "ok 2\n", "",
     (("open r n", "ok 2 1 8000 wave pcm_u8"), ("get strings", "ok 1\ntitle --x y"), ("get bext", bext_lines(time_ref="7", orig_ref="r")))),
    (("convert", "a", "x.y.8svx"), 0, "ok 2\n", "", (("open r x.y.8svx", "ok 2 1 8000 svx pcm_s8"),)),
    (("convert", "a", ".wav"), 0, "ok 2\n", "", (("open r .wav", "ok 2 1 8000 wave pcm_u8"),)),
    (("convert", "a", "x.WAV"), 1, "", "snd: x.WAV: error 54 UnknownSuffix\n", ()),
    (("convert", "a", "x."), 1, "", "snd: x.: error 54 UnknownSuffix\n", ()),
    (("convert", "a", "wav"), 1, "", "snd: wav: error 54 UnknownSuffix\n", ()),
)
# the files that they read, beside those of the lines
MORE_FILES = {"a": ("wave", "pcm_u8", 8000, (1, 2)), "b.wav": ("wave", "pcm_u8", 8000, (3, 4)), "a.au": ("au", "pcm_16_be", 8000, (1, 2, 3))}

# ---- chunks

# the INFO list that sndfile-metadata-set of libsndfile 1.2.0 wrote
LIBSNDFILE_INFO = (b"INFOINAM\x08\0\0\0A tone\0\0ICOP\x06\0\0\0none\0\0"
                   b"IART\x08\0\0\0Nobody\0\0ICMT\x0c\0\0\0two frames\0\0ICRD\x06\0\0\x002024\0\0IPRD\x06\0\0\0Tests\0")
# the INFO list that ffmpeg 5.1 wrote; and its items, one after the other in the order of the keys
FFMPEG_INFO = (b"INFOIART\x07\0\0\0ffmpeg\0\0ICMT\x04\0\0\0odd\0ICOP\x02\0\0\0c\0"
               b"ICRD\x05\0\0\x002024\0\0IGNR\x05\0\0\0Test\0\0INAM\x05\0\0\0Sine\0\0IPRD\x03\0\0\0Al\0\0ITRK\x02\0\0\x003\0"
               b"ISFT\x0e\0\0\0Lavf59.27.100\0")
FFMPEG_INFO_IN_ORDER = (b"INFOINAM\x05\0\0\0Sine\0\0ICOP\x02\0\0\0c\0ISFT\x0e\0\0\0Lavf59.27.100\0"
                        b"IART\x07\0\0\0ffmpeg\0\0ICMT\x04\0\0\0odd\0ICRD\x05\0\0\x002024\0\0IPRD\x03\0\0\0Al\0\0IGNR\x05\0\0\0Test\0\0"
                        b"ITRK\x02\0\0\x003\0")
# the cue points that libsndfile 1.2.0 wrote: 1 at 1000, and 7 at 70000
LIBSNDFILE_CUES = (b"\x02\0\0\0"
                   b"\x01\0\0\0\xe8\x03\0\0data\0\0\0\0\0\0\0\0\xe8\x03\0\0"
                   b"\x07\0\0\0\x70\x11\x01\0data\0\0\0\0\0\0\0\0\x70\x11\x01\0")


def parts(*pairs):
    """Texts, each with zeros behind it up to a size."""
    return b"".join(text.ljust(size, b"\0") for text, size in pairs)


# the broadcast extension that libsndfile 1.2.0 wrote, and the one that ffmpeg 5.1 wrote, but for its coding history
LIBSNDFILE_BEXT = parts((b"A plain tone", 256), (b"snd tests", 32), (b"REF0001", 32), (b"2024-01-0203:04:05\xd2\x04\0\0\0\0\0\0\x02\0U", 282),
                        (b"A=PCM,F=8000\r\nA=PCM,F=8000,W=16,M=mono,T=libsndfile-1.2.0\r\n\0", 60))
FFMPEG_BEXT = parts((b"A sine wave", 256), (b"ffmpeg", 32), (b"F0002", 32), (b"2024-02-0304:05:06\0\xf2\x05\x2a\x01\0\0\0\x01", 282), (b"A=PCM\0", 6))

NO_CHUNK, TOO_LARGE = "error 34 NoSuchChunk", "error 31 ChunkTooLarge"
ADTL = (b"LIST", b"adtllabl\x06\0\0\0\x01\0\0\0A\0")
INFO = (b"LIST", b"INFOINAM\x02\0\0\0A\0IART\x03\0\0\0Bo\0\0")
CUE = (b"cue ", b"\x01\0\0\0\x07\0\0\0\x01\0\0\0data\0\0\0\0\0\0\0\0\xe8\x03\0\0")
ODD_TEXTS = b"INFOINAM\x07\0\0\0a \x80\x1fb~\0\0IART\x01\0\0\0\0\0"
BEXT_OF_X_AT_5 = bytes(256) + b"X" + bytes(81) + b"\5" + bytes(7) + b"\1" + bytes(255)
TWO_CUES = b"\2\0\0\0" + b"".join(number + place + b"data" + bytes(8) + place for number, place in ((b"\1\0\0\0", b"\5\0\0\0"), (b"\2\0\0\0", b"\x70\x11\1\0")))
# Chunks before the data, and the replies to `get strings`, `get bext` and `get cues`.
ASKED = (
    ("no chunk", (), NO_CHUNK, NO_CHUNK, NO_CHUNK),
    ("a list of another sort before that of the texts", (ADTL, INFO, (b"bext", bytes(602)), CUE), "ok 2\ntitle A\nartist Bo", bext_lines(), "ok 1\n7 1000"),
    ("one byte, or a text, is wanting", ((b"LIST", b"INFOINAM\x03\0\0\0A\0"), (b"bext", bytes(601)), (b"cue ", parts((b"\x01", 27)))),
     "error 61 BadInfo", "error 63 BadBext", "error 62 BadCue"),
    ("the first one counts, whatever its size", ((b"LIST", parts((b"INFO", 65537))), INFO, (b"bext", bytes(65537)), (b"cue ", parts((b"\x01", 65536)))), TOO_LARGE, TOO_LARGE, "ok 1\n0 0"),
    ("no list begins with INFO", (ADTL, (b"LIST", b"INF"), (b"INFO", b"INFO")), NO_CHUNK, NO_CHUNK, NO_CHUNK),
    ("of libsndfile", ((b"LIST", LIBSNDFILE_INFO), (b"bext", LIBSNDFILE_BEXT), (b"cue ", LIBSNDFILE_CUES)),
     "ok 6\ntitle A tone\ncopyright none\nartist Nobody\ncomment two frames\ndate 2024\nalbum Tests",
     bext_lines(description="A plain tone", originator="snd tests", orig_ref="REF0001", orig_date="2024-01-02", orig_time="03:04:05", time_ref="1234",
                coding_hist="A=PCM,F=8000??A=PCM,F=8000,W=16,M=mono,T=libsndfile-1.2.0??"),
     "ok 2\n1 1000\n7 70000"),
    ("of ffmpeg", ((b"LIST", FFMPEG_INFO), (b"bext", FFMPEG_BEXT)),
     "ok 9\ntitle Sine\ncopyright c\nsoftware Lavf59.27.100\nartist ffmpeg\ncomment odd\ndate 2024\nalbum Al\ngenre Test\ntrack 3",
     bext_lines(description="A sine wave", originator="ffmpeg", orig_ref="F0002", orig_date="2024-02-03", orig_time="04:05:06", time_ref="5000000000", coding_hist="A=PCM"), NO_CHUNK),
    ("bytes that are not printed", ((b"a b~", bytes(10)), (b"\0A\x7f!", b""), (b"LIST", ODD_TEXTS), (b"bext", BEXT_OF_X_AT_5), (b"cue ", TWO_CUES)),
     "ok 2\ntitle a ??b~\nartist ", bext_lines(originator="X", time_ref="5"), "ok 2\n1 5\n2 70000"),
)
# Chunks behind the data, how many bytes follow the size of the whole, and the lines of `info` behind the seven of each file.
LISTED = (
    ((), 38, ()),
    ((ADTL, (b"LIST", INFO_OF_A)), 86, ("chunk LIST 18", "chunk LIST 14", "string title A")),
    ((ADTL, (b"LIST", b"INF")), 76, ("chunk LIST 18", "chunk LIST 3")),
    (((b"LIST", b"INFOINAM\x03\0\0\0A\0"),), 60, ("chunk LIST 14",)),
    (((b"LIST", b"INFOINAM\x03\0\0\0A\0"), (b"LIST", INFO_OF_A)), 82, ("chunk LIST 14", "chunk LIST 14")),
)
# The same of chunks before the data.
SHOWN = (
    ((b"a b~", bytes(10)), (b"\0A\x7f!", b""), (b"hexa", b"\x00\x0f\xff"), (b"LIST", ODD_TEXTS)),
    ("chunk a_b~ 10", "chunk ?A?! 0", "chunk hexa 3", "chunk LIST 30", "string title a ??b~", "string artist "),
)
# A chunk of a file, options of one run of `metadata-set` after the other, and the body of that chunk then. Of a broadcast extension
# nothing but the 0 behind its coding history changes.
SET_ANEW = (
    (b"LIST", FFMPEG_INFO, (("--str-title", "A"), ("--str-title", "Sine")), FFMPEG_INFO_IN_ORDER),
    (b"bext", LIBSNDFILE_BEXT, (("--bext-orig-ref", "REF0001"),), LIBSNDFILE_BEXT[:-1]),
    (b"bext", FFMPEG_BEXT, (("--bext-orig-ref", "F0002"),), FFMPEG_BEXT[:-1]),
)
# Scripts that set chunks in a file that is made, with their replies and, where it is told, the whole file.
LATE, NO_CHUNKS, LONG_TEXT = "error 28 FramesWritten", "error 30 NoChunks", "error 64 TextTooLong"
SETTING = (
    ("texts, fields and cue points", (
        *MADE, ("set string title A", "ok"), ("set string artist B", "ok"), ("set string title C", "ok"), ("set string date " + "a" * 1025, LONG_TEXT),
        ("set bext originator X", "ok"), ("set bext description " + "a" * 257, LONG_TEXT), ("set bext time-ref 5", "ok"), ("set cue 5 7", "ok"), ("write 1", "ok 1"),
        ("set string title D", LATE), ("set bext time-ref 6", LATE), ("set cue 5", LATE)),
     b"RIFF\xe4\x02\0\0WAVEfmt \x10\0\0\0\x01\0\x01\0\x40\x1f\0\0\x40\x1f\0\0\x01\0\x08\0"
     b"LIST\x18\0\0\0INFOINAM\x02\0\0\0C\0IART\x02\0\0\0B\0"
     b"bext\x5a\x02\0\0" + BEXT_OF_X_AT_5 +
     b"cue \x34\0\0\0\x02\0\0\0"
     b"\x01\0\0\0\x05\0\0\0data\0\0\0\0\0\0\0\0\x05\0\0\0"
     b"\x02\0\0\0\x07\0\0\0data\0\0\0\0\0\0\0\0\x07\0\0\0"
     b"data\x01\0\0\0\x81\0"),
    ("VOC has no chunks", (("create voc pcm_u8 1 8000 n", "ok 0 1 8000 voc pcm_u8"), ("set string title A", NO_CHUNKS), ("set bext originator X", NO_CHUNKS), ("set bext time-ref 5", NO_CHUNKS),
                           ("set cue 5", NO_CHUNKS)), None),
    ("the extension of ffmpeg", (
        *MADE, ("set bext description A sine wave", "ok"), ("set bext originator ffmpeg", "ok"), ("set bext orig-ref F0002", "ok"), ("set bext orig-date 2024-02-03", "ok"),
        ("set bext orig-time 04:05:06", "ok"), ("set bext coding-hist A=PCM", "ok"), ("set bext time-ref 5000000000", "ok"), ("get chunk bext", bytes_line(FFMPEG_BEXT[:-1]))), None),
    ("cue points by their places", (*MADE, ("set cue 5 3", "ok"), ("get cues", "ok 2\n1 5\n2 3")), None),
    ("a cue point as libsndfile has it", (*MADE, ("set cue 1000", "ok"), ("get chunk cue_", bytes_line(b"\1\0\0\0" + LIBSNDFILE_CUES[4:28]))), None),
    ("bytes in hexadecimal digits", (*MADE, ("set chunk hexa 000fff", "ok"), ("get chunk hexa", "ok 3 000fff")), None),
)
