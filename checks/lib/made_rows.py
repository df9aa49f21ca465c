"""Scripts that make and change files, what they are answered, and the bytes of the files afterwards. All is written out by hand but for the
files of ADPCM: their bytes are those that the formats of the blocks and of the head give, worked out by another program, and the samples
those that SoX and the programs of libsndfile find in them."""
from lib.containers_words import PLAIN, TITLED

# two frames, 1 and -1, with a count that lies in two sectors
STRADDLING = b"RIFF\xfe\x01\0\0WAVEfmt \x10\0\0\0\x01\0\x01\0@\x1f\0\0\x80>\0\0\x02\0\x10\0abcd\xce\x01\0\0" + bytes(462) + b"data\x04\0\0\0\x01\0\xff\xff"
# the plain file with 5 for its first frame, and then with a third one, 7
CHANGED = b"RIFF\x28\0\0\0WAVEfmt \x10\0\0\0\x01\0\x01\0\x40\x1f\0\0\x80\x3e\0\0\x02\0\x10\0data\x04\0\0\0\x05\0\xff\xff"
GROWN = b"RIFF\x2a\0\0\0WAVEfmt \x10\0\0\0\x01\0\x01\0\x40\x1f\0\0\x80\x3e\0\0\x02\0\x10\0data\x06\0\0\0\x05\0\xff\xff\x07\0"

# what is shown, the file's name, its bytes or None, a script, the answers, the status, and the bytes afterwards
SCRIPTS = [
    ("trailing chunks forbid growth and allow overwriting", "t.wav", TITLED,
     "open u t.wav\nseek w 2\nwrite 5\nseek w 0\nwrite 7\nseek r 0\nread 2\nclose\n",
     "ok 2 1 8000 wave pcm_16_le\nok 2\nerror 25 TrailingData\nok 0\nok 1\nok 0\nok 2\n7\n-1\nok 2\n", 1,
     b"RIFF>\0\0\0WAVEfmt \x10\0\0\0\x01\0\x01\0@\x1f\0\0\x80>\0\0\x02\0\x10\0data\x04\0\0\0\x07\0\xff\xffLIST\x0e\0\0\0INFOINAM\x02\0\0\0A\0"),
    # without a filler the size of the data would stand from byte 510 on, in two sectors
    ("a filler stands before the data where their size would lie in two sectors", "f.wav", None,
     f"create wave pcm_16_le 1 8000 f.wav\nset chunk abcd {'00' * 462}\nwrite 1\nclose\n",
     "ok 0 1 8000 wave pcm_16_le\nok\nok 1\nok 1\n", 0,
     b"RIFF\x0c\x02\0\0WAVEfmt \x10\0\0\0\x01\0\x01\0@\x1f\0\0\x80>\0\0\x02\0\x10\0abcd\xce\x01\0\0" + bytes(462) + b"JUNK\x08\0\0\0" + bytes(8) + b"data\x02\0\0\0\x01\0"),
    ("and goes where a further chunk moves the size into one", "g.wav", None,
     f"create wave pcm_16_le 1 8000 g.wav\nset chunk abcd {'00' * 462}\nset chunk efgh 0102\nwrite 1\nclose\n",
     "ok 0 1 8000 wave pcm_16_le\nok\nok\nok 1\nok 1\n", 0,
     b"RIFF\x06\x02\0\0WAVEfmt \x10\0\0\0\x01\0\x01\0@\x1f\0\0\x80>\0\0\x02\0\x10\0abcd\xce\x01\0\0" + bytes(462) + b"efgh\x02\0\0\0\x01\x02" + b"data\x02\0\0\0\x01\0"),
    ("a zero outer size is healed by growth", "x.wav",
     b"RIFF\0\0\0\0WAVEfmt \x10\0\0\0\x01\0\x01\0@\x1f\0\0\x80>\0\0\x02\0\x10\0data\x02\0\0\0\x01\0\xff\xff",
     "open u x.wav\nseek w 1\nwrite 9\nclose\n",
     "ok 1 1 8000 wave pcm_16_le\nok 1\nok 1\nok 2\n", 0,
     b"RIFF(\0\0\0WAVEfmt \x10\0\0\0\x01\0\x01\0@\x1f\0\0\x80>\0\0\x02\0\x10\0data\x04\0\0\0\x01\0\x09\0"),
    ("a sample out of range is refused whole", "d.wav", None,
     "create wave pcm_16_le 1 8000 d.wav\nwrite 32768\nwrite 32767\nclose\n",
     "ok 0 1 8000 wave pcm_16_le\nerror 23 SampleRange\nok 1\nok 1\n", 1,
     b"RIFF&\0\0\0WAVEfmt \x10\0\0\0\x01\0\x01\0@\x1f\0\0\x80>\0\0\x02\0\x10\0data\x02\0\0\0\xff\x7f"),
    ("a law keeps of each number the one that its byte stands for, and its file states the frames in a `fact`", "m.wav", None,
     "create wave ulaw 1 8000 m.wav\nwrite 0 -1 1000\nwrite 32768\nclose\nopen u m.wav\nread 3\nseek w 2\nwrite -1000\nclose\n",
     "ok 0 1 8000 wave ulaw\nok 3\nerror 23 SampleRange\nok 3\nok 3 1 8000 wave ulaw\nok 3\n0\n0\n988\nok 2\nok 1\nok 3\n", 1,
     b"RIFF6\0\0\0WAVEfmt \x12\0\0\0\x07\0\x01\0@\x1f\0\0@\x1f\0\0\x01\0\x08\0\0\0fact\x04\0\0\0\x03\0\0\0data\x03\0\0\0\xff\x7f\x4e\0"),
    ("a count field across a sector edge forbids automatic update", "g.wav", STRADDLING,
     "open u g.wav\nauto on\nupdate\nclose\n",
     "ok 2 1 8000 wave pcm_16_le\nerror 27 Straddle\nok 2\nok 2\n", 1,
     STRADDLING),
    ("automatic growth and truncation leave a padded file", "o.wav", None,
     "create wave pcm_u8 1 8000 o.wav\nwrite 0\nauto on\nwrite 1 2\ntruncate 1\nclose\n",
     "ok 0 1 8000 wave pcm_u8\nok 1\nok 1\nok 2\nok 1\nok 1\n", 0,
     b"RIFF&\0\0\0WAVEfmt \x10\0\0\0\x01\0\x01\0@\x1f\0\0@\x1f\0\0\x01\0\x08\0data\x01\0\0\0\x80\0"),
]

# the same, with the file pinned
PINNED = [
    ("a pinned script may not close", "a.wav", PLAIN,
     "write 5\nclose\n",
     "ok 2 1 8000 wave pcm_16_le\nok 2\nok 1\nerror 65 Pinned\n", 1,
     CHANGED),
    ("what is refused in it, and in which order", "a.wav", PLAIN,
     "create wave ima 1 8000 b.wav\ncreate wave pcm_u8 1 8000 b.wav\nopen r b.wav\nopen u a.wav\nauto off\nauto on\nclosed\nseek w 2\nwrite 7\nseek w 0\nwrite 5\nread 1\n",
     "ok 2 1 8000 wave pcm_16_le\nok 2\nerror 65 Pinned\nerror 65 Pinned\nerror 65 Pinned\nerror 65 Pinned\nerror 65 Pinned\nerror 65 Pinned\nerror 40 BadCommand\nok 2\nok 1\nok 0\nok 1\nok 1\n5\n", 1,
     GROWN),
    ("a pinned file with a straddling field ends the run", "g.wav", STRADDLING,
     "write 5\ninfo\n",
     "ok 2 1 8000 wave pcm_16_le\nerror 27 Straddle\n", 1,
     STRADDLING),
]

# what is refused in a file of ADPCM that is made, with the frames of its whole blocks on the disk
MIDDLE = "info\nupdate\nauto on\nseek w 0\nseek rw 0\nseek r 0\nread 1\ntruncate 0\ntrim\nset string artist A\nget strings\nwrite 32768\nwrite "

# the codec and the channels; frames that are given so many times, and then some more; the answers to the script that makes the file; a
# script that reads it, and its answers; and the bytes
ENCODED = [
    # IMA ADPCM, one channel
    ("ima 1", "0 1000 2000 -300 32767 -32768 5 17 -1 256 99", 46, "-1",
     "ok 0 1 8000 wave ima\nok\nok 506\nok 506 1 8000 wave ima\nok 505\nok 505\nerror 33 AdpcmSeek\nerror 33 AdpcmSeek\nerror 44 WrongMode\nerror 44 WrongMode\nerror 20 AdpcmUpdate\nerror 20 AdpcmUpdate\nerror 28 FramesWritten\nok 1\ntitle Dawn\nerror 23 SampleRange\nok 1\nok 507\n",
     "open r a.wav\nread 12\nseek r 505\nread 2\nclose\n",
     "ok 507 1 8000 wave ima\nok 12\n0\n11\n41\n-22\n114\n-179\n31\n-7\n27\n247\n104\n-26\nok 505\nok 2\n99\n-2699\nok 507\n",
     b"RIFFN\x02\0\0WAVEfmt \x14\0\0\0\x11\0\x01\0@\x1f\0\0\xd7\x0f\0\0\0\x01\x04\0\x02\0\xf9\x01"
     b"LIST\x12\0\0\0INFOINAM\x05\0\0\0Dawn\0\0"
     b"fact\x04\0\0\0\xfb\x01\0\0"
     b"data\0\x02\0\0\0\0\0\0w\x7f/\x08\xa3z\xe7\xf7\x82\x80\x80\x10z\x1f\x80\0\x08\x90\xf7\x01\x08\x80\x80x?\x08\x08\x08\x90\xf7\x03\x08\x08\x80x?"
     b"\x80\x80\0\x88\xf7\x03\x08\x08\x08x?\x80\x80\0\x88\xf7\x03\x08\x08\x08x?\x80\x80\x80\x80\xf7\x03\x08\x08\x08x?\x80\x80\0\x88\xf7\x03\x08\x08"
     b"\x08x?\x80\x80\x80\x80\xf7\x03\x08\x08\x08x?\x80\x80\0\x88\xf7\x03\x08\x08\x08x?\x80\x80\x80\x80\xf7\x03\x08\x08\x08x?\x80\x80\x80\x80\xf7"
     b"\x03\x08\x08\x80x?\x80\x80\x80\x80\xf7\x03\x08\x08\x08x?\x80\x80\x80\x80\xf7\x03\x08\x08\x80x?\x80\x80\x80\x80\xf7\x03\x08\x08\x08x?\x80\x80"
     b"\x80\x80\xf7\x03\x08\x08\x08x?\x80\x80\0\x88\xf7\x03\x08\x08\x08x?\x80\x80\x80\x80\xf7\x03\x08\x08\x08x?\x80\x80\0\x88\xf7\x03\x08\x08\x08x?"
     b"\x80\x80\x80\x80\xf7\x03\x08\x08\x08x?\x80\x80\x80\x80\xf7\x03\x08\x08\x80x?\x80\x80\x80\x80\xf7\x03\x08\x08\x08x?\x80\x80\x80\x80\xf7\x03"
     b"\x08\x08\x80x?\x80\x80\x80\x80\xf7\x03\x08c\0T\0\x08\x80\x08\x80\x08\x80\x08\x80\x80\x08\x80\x08\x08\x80\x80\x08\x08\x80\x80\x08\x08\x80\x08"
     b"\x80\x08\x80\x08\x80\x08\x80\x08\x80\x08\x80\x08\x80\x80\x80\x80\x08\x08\x08\x09" + bytes(209)),
    # IMA ADPCM, two channels
    ("ima 2", "0 5 100 -5 2000 7 -300 9000 32767 -32768", 4, "3 4 -7 8",
     "ok 0 2 8000 wave ima\nok\nok 20\nok 20 2 8000 wave ima\nok 0\nok 0\nerror 33 AdpcmSeek\nerror 33 AdpcmSeek\nerror 44 WrongMode\nerror 44 WrongMode\nerror 20 AdpcmUpdate\nerror 20 AdpcmUpdate\nerror 28 FramesWritten\nok 1\ntitle Dawn\nerror 22 PartFrame\nok 2\nok 22\n",
     "open r a.wav\nread 12\nseek r 20\nread 2\nclose\n",
     "ok 22 2 8000 wave ima\nok 12\n0 5\n11 -5\n41 5\n-22 27\n114 -19\n17 0\n105 -6\n348 10\n-173 86\n947 -79\n146 -9\n1 12\nok 20\nok 2\n-846 -137\n134 121\nok 22\n",
     b"RIFFN\x02\0\0WAVEfmt \x14\0\0\0\x11\0\x02\0@\x1f\0\0\xae\x1f\0\0\0\x02\x04\0\x02\0\xf9\x01"
     b"LIST\x12\0\0\0INFOINAM\x05\0\0\0Dawn\0\0"
     b"fact\x04\0\0\0\x16\0\0\0"
     b"data\0\x02\0\0\0\0\0\0\x05\0\0\0w\x7f*\xf7>\xf7\x81q\xa7x|\x0b\x1f\x80\xf7\x01\xa1\xb7\x80\x80p\x1f\x80\x80\0\x88\0\x88\x80\x80\x80\x80\x80"
     b"\0\x08\x88\x80\x80\x80\x80\0\x88\x80\0\x80\x80\x80\x80\x08\x88\0\x88\x80\x80\x80\x80\0\x88\0\x88\x80\x80\x80\0\0\x88\0\x88\x88\x80\x80\x80\0"
     b"\x88\0\x88\0\x08\x08\x08\x80\x80\x80\0\0\0\0\0\x08\x08\x08" + bytes(413)),
    # Microsoft ADPCM, one channel
    ("ms 1", "0 1000 2000 -300 32767 -32768 5 17 -1 256", 51, "-1",
     "ok 0 1 8000 wave ms\nok\nok 510\nok 510 1 8000 wave ms\nok 500\nok 500\nerror 33 AdpcmSeek\nerror 33 AdpcmSeek\nerror 44 WrongMode\nerror 44 WrongMode\nerror 20 AdpcmUpdate\nerror 20 AdpcmUpdate\nerror 28 FramesWritten\nok 1\ntitle Dawn\nerror 23 SampleRange\nok 1\nok 511\n",
     "open r a.wav\nread 12\nseek r 509\nread 2\nclose\n",
     "ok 511 1 8000 wave ms\nok 12\n0\n1000\n2922\n0\n16506\n-32768\n0\n0\n0\n0\n0\n0\nok 509\nok 2\n0\n0\nok 511\n",
     b"RIFFl\x02\0\0WAVEfmt 2\0\0\0\x02\0\x01\0@\x1f\0\0\0\x10\0\0\0\x01\x04\0 \0\xf4\x01\x07\0\0\x01\0\0\0\x02\0\xff\0\0\0\0\xc0\0@\0\xf0\0\0\0"
     b"\xcc\x010\xff\x88\x01\x18\xff"
     b"LIST\x12\0\0\0INFOINAM\x05\0\0\0Dawn\0\0"
     b"fact\x04\0\0\0\xff\x01\0\0"
     b"data\0\x02\0\0\x02j\x0b\xe8\x03\0\0\x10z\0\0\0\0}\0\0\0\0}\0\0\0\0}\0\0\0\0|\0\0\0\0}\0\0\0\0}\0\0\0\0|\0\0\0\0}\0\0\0\0}\0\0\0\0|\0\0\0\0}"
     b"\0\0\0\0}\0\0\0\0|\0\0\0\0}\0\0\0\0}\0\0\0\0}\0\0\0\0|\0\0\0\0}\0\0\0\0}\0\0\0\0|\0\0\0\0}\0\0\0\0}\0\0\0\0|\0\0\0\0}\0\0\0\0}\0\0\0\0|\0\0"
     b"\0\0}\0\0\0\0}\0\0\0\0}\0\0\0\0|\0\0\0\0}\0\0\0\0}\0\0\0\0|\0\0\0\0}\0\0\0\0}\0\0\0\0|\0\0\0\0}\0\0\0\0}\0\0\0\0|\0\0\0\0}\0\0\0\0}\0\0\0\0|"
     b"\0\0\0\0}\0\0\0\0}\0\0\0\0}\0\0\0\0|\0\0\0\0}\0\0\0\0}\0\0\0\0|\0\0\x02j\x0b\xe8\x03\0\0\x10z" + bytes(247)),
    # Microsoft ADPCM, two channels
    ("ms 2", "0 5 100 -5 2000 7 -300 9000 32767 -32768", 4, "3 4 -7 8",
     "ok 0 2 8000 wave ms\nok\nok 20\nok 20 2 8000 wave ms\nok 0\nok 0\nerror 33 AdpcmSeek\nerror 33 AdpcmSeek\nerror 44 WrongMode\nerror 44 WrongMode\nerror 20 AdpcmUpdate\nerror 20 AdpcmUpdate\nerror 28 FramesWritten\nok 1\ntitle Dawn\nerror 22 PartFrame\nok 2\nok 22\n",
     "open r a.wav\nread 12\nseek r 20\nread 2\nclose\n",
     "ok 22 2 8000 wave ms\nok 12\n0 5\n100 -5\n2922 0\n0 9381\n16506 -22472\n0 0\n0 0\n0 0\n0 6111\n25781 -32768\n0 0\n0 0\nok 20\nok 2\n0 0\n0 0\nok 22\n",
     b"RIFFl\x02\0\0WAVEfmt 2\0\0\0\x02\0\x02\0@\x1f\0\0\0 \0\0\0\x02\x04\0 \0\xf4\x01\x07\0\0\x01\0\0\0\x02\0\xff\0\0\0\0\xc0\0@\0\xf0\0\0\0\xcc"
     b"\x010\xff\x88\x01\x18\xff"
     b"LIST\x12\0\0\0INFOINAM\x05\0\0\0Dawn\0\0"
     b"fact\x04\0\0\0\x16\0\0\0"
     b"data\0\x02\0\0\x02\x02j\x0b\x99\x0dd\0\xfb\xff\0\0\x05\0\x10\x03x\0\0\0\x01z\0\0\0\x01k\0\0\0\x01L" + bytes(480)),
]

# how the scripts below begin, and what that is answered
CREATE = "create wave pcm_16_le 1 8000 j.wav\n"
CREATED = "ok 0 1 8000 wave pcm_16_le\n"

# what is said behind that of further chunks, texts, fields and cue points, and what is answered
CHUNKS = [
    ("set string title A\nset chunk abcd 0102\nset cue 5\nset bext originator X\nget chunk abcd\nget chunks\nget cues\nset chunk data 00\nwrite 1\nset chunk abcd 03\n",
     "ok\nok\nok\nok\nok 2 0102\nok 4\nLIST 14\nabcd 2\ncue_ 28\nbext 602\nok 1\n1 5\nerror 29 ReservedChunk\nok 1\nerror 28 FramesWritten\n"),
    # texts stand in the order of the table, and one that is set again takes its place
    ("set string artist B\nset string title A\nset string artist C d\nget strings\nget chunks\n",
     "ok\nok\nok\nok 2\ntitle A\nartist C d\nok 1\nLIST 26\n"),
    ("get strings\nget bext\nget cues\nget chunks\nget chunk abcd\n",
     "error 34 NoSuchChunk\nerror 34 NoSuchChunk\nerror 34 NoSuchChunk\nok 0\nerror 34 NoSuchChunk\n"),
    # a text keeps its spaces behind the first, but for those at the end of the line
    ("set string title  A \nget strings\nset bext time-ref 5\nset bext description one two\nset bext time-ref  5\nget bext\n",
     "ok\nok 1\ntitle  A\nok\nok\nerror 40 BadCommand\nok 7\ndescription one two\noriginator \norig-ref \norig-date \norig-time \ntime-ref 5\ncoding-hist \n"),
    ("set bext orig-date 2020-01-021\nset bext orig-date 2020-01-02\nset bext orig-time 123456789\nget bext\n",
     "error 64 TextTooLong\nok\nerror 64 TextTooLong\nok 7\ndescription \noriginator \norig-ref \norig-date 2020-01-02\norig-time \ntime-ref 0\ncoding-hist \n"),
    ("auto on\nset string title A\nset chunk abcd -\nauto off\nset chunk abcd -\nget chunk abcd\nset chunk a_c~ ff00\nget chunks\n",
     "ok 0\nerror 32 AutoOn\nerror 32 AutoOn\nok 0\nok\nok 0\nok\nok 2\nabcd 0\na_c~ 2\n"),
    ("set chunk LIST 00\nset chunk JUNK 00\nset chunk abcd 0\nset chunk abcd 0G\nset string title\nset cue\nset cue 4294967296\n",
     "error 29 ReservedChunk\nerror 29 ReservedChunk\nerror 40 BadCommand\nerror 40 BadCommand\nerror 40 BadCommand\nerror 40 BadCommand\nerror 40 BadCommand\n"),
    # cue points are put anew as a whole
    ("set cue 5 7\nset cue 9\nget cues\n",
     "ok\nok\nok 1\n1 9\n"),
    ("set string title A\nwrite 1 2 3\nget strings\ntruncate 1\nget strings\nset string title B\nget strings\n",
     "ok\nok 3\nok 1\ntitle A\nok 1\nok 1\ntitle A\nerror 28 FramesWritten\nok 1\ntitle A\n"),
]

BEXT = bytes(256) + b"X" + bytes(89) + b"\x01" + bytes(255)
# the file of the first of these scripts, and what is told of it under the name `a.wav`
FIRST = (b"RIFF\xcc\x02\0\0WAVEfmt \x10\0\0\0\x01\0\x01\0\x40\x1f\0\0\x80\x3e\0\0\x02\0\x10\0"
         b"LIST\x0e\0\0\0INFOINAM\x02\0\0\0A\0"
         b"abcd\x02\0\0\0\x01\x02"
         b"cue \x1c\0\0\0\x01\0\0\0\x01\0\0\0\x05\0\0\0data\0\0\0\0\0\0\0\0\x05\0\0\0"
         b"bext\x5a\x02\0\0" + BEXT + b"data\x02\0\0\0\x01\0")
TOLD = "name a.wav\nkind wave\ncodec pcm_16_le\nchannels 1\nrate 8000\nframes 1\nduration 00:00:00.000\nchunk LIST 14\nchunk abcd 2\nchunk cue_ 28\nchunk bext 602\nstring title A\n"

# files of other kinds and in other modes, and what is answered
OTHERS = [
    ("create voc pcm_u8 1 8000 j.wav\nset string title A\nset chunk abcd 00\nset chunk data 00\nget chunks\n",
     "ok 0 1 8000 voc pcm_u8\nerror 30 NoChunks\nerror 30 NoChunks\nerror 30 NoChunks\nok 0\n"),
    ("create svx pcm_s8 1 8000 j.wav\nset string title A\nset chunk NAME 41\nset chunk LIST 494e464f\nset chunk VHDR 00\nget chunks\nget strings\n",
     "ok 0 1 8000 svx pcm_s8\nerror 30 NoChunks\nok\nok\nerror 29 ReservedChunk\nok 2\nNAME 1\nLIST 4\nok 0\n"),
    ("create rf64 pcm_16_le 1 8000 j.wav\nset string genre G\nget strings\nclose\nopen u j.wav\nset string title A\nget strings\n",
     "ok 0 1 8000 rf64 pcm_16_le\nok\nok 1\ngenre G\nok 0\nok 0 1 8000 rf64 pcm_16_le\nerror 44 WrongMode\nok 1\ngenre G\n"),
    ("get chunks\nset string title A\n",
     "error 42 NotOpen\nerror 42 NotOpen\n"),
]
