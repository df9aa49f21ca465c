"""What the tools make of some small files, and what they refuse, written out by hand. What stands in blocks of ADPCM that are read is what
sox decodes of them."""
from lib.containers_words import PLAIN, TITLED

# one channel and one frame of 16 bits, 5
ONE = b"RIFF&\0\0\0WAVEfmt \x10\0\0\0\x01\0\x01\0@\x1f\0\0\x80>\0\0\x02\0\x10\0data\x02\0\0\0\x05\0"
# a file of IMA ADPCM without frames
BLOCKS = b"RIFF4\0\0\0WAVEfmt \x14\0\0\0\x11\0\x01\0@\x1f\0\0\xd7\x0f\0\0\0\x01\x04\0\x02\0\xf9\x01fact\x04\0\0\0\0\0\0\0data\0\0\0\0"
# a block of IMA ADPCM, of 9 frames
IMA = b"RIFF<\0\0\0WAVEfmt \x14\0\0\0\x11\0\x01\0@\x1f\0\0\xc7\x1b\0\0\x08\0\x04\0\x02\0\x09\0fact\x04\0\0\0\x09\0\0\0data\x08\0\0\0d\0\x05\0\x17\x8f \xc3"
# two blocks of Microsoft ADPCM, of 4 frames each
MICROSOFT = b"RIFFb\0\0\0WAVEfmt 2\0\0\0\x02\0\x01\0@\x1f\0\0\x80>\0\0\x08\0\x04\0 \0\x04\0\x07\0\0\x01\0\0\0\x02\0\xff\0\0\0\0\xc0\0@\0\xf0\0\0\0\xcc\x010\xff\x88\x01\x18\xfffact\x04\0\0\0\x08\0\0\0data\x10\0\0\0\x01\x10\0\x01\0\x02\0~\x02\x10\0\x01\0\x02\x009"
# one whose predictor is none
BAD = b"RIFFZ\0\0\0WAVEfmt 2\0\0\0\x02\0\x01\0@\x1f\0\0\x80>\0\0\x08\0\x04\0 \0\x04\0\x07\0\0\x01\0\0\0\x02\0\xff\0\0\0\0\xc0\0@\0\xf0\0\0\0\xcc\x010\xff\x88\x01\x18\xfffact\x04\0\0\0\x04\0\0\0data\x08\0\0\0\x07\0\0\0\0\0\0\0"
# two channels, with one frame
STEREO = b"RIFF(\0\0\0WAVEfmt \x10\0\0\0\x01\0\x02\0@\x1f\0\0\0}\0\0\x04\0\x10\0data\x04\0\0\0\x01\0\x02\0"
# one channel at 16000 frames a second
FAST = b"RIFF&\0\0\0WAVEfmt \x10\0\0\0\x01\0\x01\0\x80>\0\0\0}\0\0\x02\0\x10\0data\x02\0\0\0\x07\0"
# 8 bits with a sign
SMALL = b".snd\0\0\0\x18\0\0\0\x02\0\0\0\x02\0\0\x1f@\0\0\0\x01\0\xff"
# two frames of 8 bits, behind a chunk of three bytes and before a title
CHUNKED = b"RIFFH\0\0\0WAVEfmt \x10\0\0\0\x01\0\x01\0@\x1f\0\0@\x1f\0\0\x01\0\x08\0abcd\x03\0\0\0xyz\0data\x02\0\0\0\x80\x81LIST\x0e\0\0\0INFOINAM\x02\0\0\0A\0"

# the files that are there
FILES = [
    ("a.wav", PLAIN),
    ("b.wav", ONE),
    ("t.wav", TITLED),
    ("i.wav", BLOCKS),
    ("m.wav", IMA),
    ("n.wav", MICROSOFT),
    ("p.wav", BAD),
    ("s.wav", STEREO),
    ("r.wav", FAST),
    ("v.au", SMALL),
    ("d.wav", CHUNKED),
]

# the words, the last of which names the file that is made; what is printed; and the bytes of that file
MADE = [
    # a wider number is a multiple, and a narrower one is rounded down
    (["convert", "-pcm24", "a.wav", "w.wav"], "ok 2\n",
     b"RIFF*\0\0\0WAVEfmt \x10\0\0\0\x01\0\x01\0@\x1f\0\0\xc0]\0\0\x03\0\x18\0data\x06\0\0\0\0\x01\0\0\xff\xff"),
    (["convert", "-pcmu8", "a.wav", "v.wav"], "ok 2\n",
     b"RIFF&\0\0\0WAVEfmt \x10\0\0\0\x01\0\x01\0@\x1f\0\0@\x1f\0\0\x01\0\x08\0data\x02\0\0\0\x80\x7f"),
    (["convert", "-pcms8", "a.wav", "x.au"], "ok 2\n",
     b".snd\0\0\0\x18\0\0\0\x02\0\0\0\x02\0\0\x1f@\0\0\0\x01\0\xff"),
    # the suffix says the kind, the input the class of the codec, and the kind the order of bytes
    (["convert", "a.wav", "x.au"], "ok 2\n",
     b".snd\0\0\0\x18\0\0\0\x04\0\0\0\x03\0\0\x1f@\0\0\0\x01\0\x01\xff\xff"),
    (["convert", "a.wav", "x.snd"], "ok 2\n",
     b".snd\0\0\0\x18\0\0\0\x04\0\0\0\x03\0\0\x1f@\0\0\0\x01\0\x01\xff\xff"),
    (["convert", "-endian=little", "a.wav", "x.au"], "ok 2\n",
     b"dns.\x18\0\0\0\x04\0\0\0\x03\0\0\0@\x1f\0\0\x01\0\0\0\x01\0\xff\xff"),
    (["convert", "-ulaw", "-override-sample-rate=16000", "a.wav", "x.au"], "ok 2\n",
     b".snd\0\0\0\x18\0\0\0\x02\0\0\0\x01\0\0>\x80\0\0\0\x01\xff\x7f"),
    (["convert", "-alaw", "b.wav", "x.wav"], "ok 1\n",
     b"RIFF4\0\0\0WAVEfmt \x12\0\0\0\x06\0\x01\0@\x1f\0\0@\x1f\0\0\x01\0\x08\0\0\0fact\x04\0\0\0\x01\0\0\0data\x01\0\0\0\xd5\0"),
    (["convert", "t.wav", "x.au"], "ok 2\n",
     b".snd\0\0\0\x18\0\0\0\x04\0\0\0\x03\0\0\x1f@\0\0\0\x01\0\x01\xff\xff"),
    # frames of one file behind those of another; the first says the kind, the codec and the width
    (["concat", "a.wav", "b.wav", "k.wav"], "ok 3\n",
     b"RIFF*\0\0\0WAVEfmt \x10\0\0\0\x01\0\x01\0@\x1f\0\0\x80>\0\0\x02\0\x10\0data\x06\0\0\0\x01\0\xff\xff\x05\0"),
    (["concat", "b.wav", "a.wav", "k.wav"], "ok 3\n",
     b"RIFF*\0\0\0WAVEfmt \x10\0\0\0\x01\0\x01\0@\x1f\0\0\x80>\0\0\x02\0\x10\0data\x06\0\0\0\x05\0\x01\0\xff\xff"),
    (["concat", "a.wav", "v.au", "t.wav", "k.xyz"], "ok 6\n",
     b"RIFF0\0\0\0WAVEfmt \x10\0\0\0\x01\0\x01\0@\x1f\0\0\x80>\0\0\x02\0\x10\0data\x0c\0\0\0\x01\0\xff\xff\0\0\0\xff\x01\0\xff\xff"),
    (["concat", "v.au", "a.wav", "k.wav"], "ok 4\n",
     b".snd\0\0\0\x18\0\0\0\x04\0\0\0\x02\0\0\x1f@\0\0\0\x01\0\xff\0\xff"),
    # side by side, with zeros where one has ended
    (["interleave", "a.wav", "b.wav", "-o", "c.wav"], "ok 2\n",
     b"RIFF,\0\0\0WAVEfmt \x10\0\0\0\x01\0\x02\0@\x1f\0\0\0}\0\0\x04\0\x10\0data\x08\0\0\0\x01\0\x05\0\xff\xff\0\0"),
    (["interleave", "b.wav", "v.au", "a.wav", "-o", "c.wav"], "ok 2\n",
     b"RIFF0\0\0\0WAVEfmt \x10\0\0\0\x01\0\x03\0@\x1f\0\0\x80\xbb\0\0\x06\0\x10\0data\x0c\0\0\0\x05\0\0\0\x01\0\0\0\0\xff\xff\xff"),
    # frames of a seed, four of which are overwritten, and the last eighth cut
    (["gen", "0", "1", "x.wav"], "frames 1\npeak 3\nenergy 18\n",
     b"RIFF(\0\0\0WAVEfmt \x10\0\0\0\x01\0\x02\0D\xac\0\0\x10\xb1\x02\0\x04\0\x10\0data\x04\0\0\0\x03\0\xfd\xff"),
    (["gen", "0", "5", "x.wav"], "frames 5\npeak 5360\nenergy 28988709\n",
     b"RIFF8\0\0\0WAVEfmt \x10\0\0\0\x01\0\x02\0D\xac\0\0\x10\xb1\x02\0\x04\0\x10\0data\x14\0\0\0\0\0\0\0\x01\0\xff\xff\x02\0\xfe\xff\x03\0\xfd\xff\xfd\x01\xf0\x14"),
    (["gen", "7", "8", "x.wav"], "frames 7\npeak 30985\nenergy 2742400530\n",
     b"RIFF@\0\0\0WAVEfmt \x10\0\0\0\x01\0\x02\0D\xac\0\0\x10\xb1\x02\0\x04\0\x10\0data\x1c\0\0\0\0\0\0\0\xcc\x1cNm\x01\0\xff\xffi\xdc\x98\x8d\x02\0\xfe\xff\x09y\0\x08\x03\0\xfd\xff"),
    # a text in a new list, and one in place of another
    (["metadata-set", "--str-title", "B", "a.wav", "m.wav"], "ok 2\n",
     b"RIFF>\0\0\0WAVEfmt \x10\0\0\0\x01\0\x01\0@\x1f\0\0\x80>\0\0\x02\0\x10\0LIST\x0e\0\0\0INFOINAM\x02\0\0\0B\0data\x04\0\0\0\x01\0\xff\xff"),
    (["metadata-set", "--str-title", "BCD", "t.wav", "m.wav"], "ok 2\n",
     b"RIFF@\0\0\0WAVEfmt \x10\0\0\0\x01\0\x01\0@\x1f\0\0\x80>\0\0\x02\0\x10\0LIST\x10\0\0\0INFOINAM\x04\0\0\0BCD\0data\x04\0\0\0\x01\0\xff\xff"),
    # chunks go with the frames
    (["convert", "t.wav", "x.wav"], "ok 2\n",
     b"RIFF>\0\0\0WAVEfmt \x10\0\0\0\x01\0\x01\0@\x1f\0\0\x80>\0\0\x02\0\x10\0LIST\x0e\0\0\0INFOINAM\x02\0\0\0A\0data\x04\0\0\0\x01\0\xff\xff"),
    (["convert", "d.wav", "e.wav"], "ok 2\n",
     b"RIFFH\0\0\0WAVEfmt \x10\0\0\0\x01\0\x01\0@\x1f\0\0@\x1f\0\0\x01\0\x08\0abcd\x03\0\0\0xyz\0LIST\x0e\0\0\0INFOINAM\x02\0\0\0A\0data\x02\0\0\0\x80\x81"),
    (["convert", "d.wav", "e.rf64"], "ok 2\n",
     b"RF64\xff\xff\xff\xffWAVEds64\x1c\0\0\0l\0\0\0\0\0\0\0\x02\0\0\0\0\0\0\0\x02\0\0\0\0\0\0\0\0\0\0\0fmt \x10\0\0\0\x01\0\x01\0@\x1f\0\0@\x1f\0\0\x01\0\x08\0abcd\x03\0\0\0xyz\0LIST\x0e\0\0\0INFOINAM\x02\0\0\0A\0data\xff\xff\xff\xff\x80\x81"),
    # the samples of ADPCM, as sox decodes them
    (["convert", "-pcm16", "m.wav", "x.au"], "ok 9\n",
     b".snd\0\0\0\x18\0\0\0\x12\0\0\0\x03\0\0\x1f@\0\0\0\x01\0d\0z\0\x83\0Z\0T\0Y\0r\0\x91\0k"),
    (["convert", "-pcm16", "n.wav", "x.au"], "ok 8\n",
     b".snd\0\0\0\x18\0\0\0\x10\0\0\0\x03\0\0\x1f@\0\0\0\x01\0\x02\0\x01\0p\0\x93\0\x02\0\x01\x000\xff\x90"),
    (["concat", "b.wav", "m.wav", "x.wav"], "ok 10\n",
     b"RIFF8\0\0\0WAVEfmt \x10\0\0\0\x01\0\x01\0@\x1f\0\0\x80>\0\0\x02\0\x10\0data\x14\0\0\0\x05\0d\0z\0\x83\0Z\0T\0Y\0r\0\x91\0k\0"),
    (["interleave", "b.wav", "m.wav", "-o", "x.wav"], "ok 9\n",
     b"RIFFH\0\0\0WAVEfmt \x10\0\0\0\x01\0\x02\0@\x1f\0\0\0}\0\0\x04\0\x10\0data$\0\0\0\x05\0d\0\0\0z\0\0\0\x83\0\0\0Z\0\0\0T\0\0\0Y\0\0\0r\0\0\0\x91\0\0\0k\0"),
    # of ADPCM: blocks of the size that this library gives them, which zeros fill
    (["convert", "i.wav", "x.wav"], "ok 0\n", BLOCKS),
    (["convert", "-ima-adpcm", "a.wav", "v.wav"], "ok 2\n",
     b"RIFF4\x01\0\0WAVEfmt \x14\0\0\0\x11\0\x01\0@\x1f\0\0\xd7\x0f\0\0\0\x01\x04\0\x02\0\xf9\x01fact\x04\0\0\0\x02\0\0\0data\0\x01\0\0\x01\0\0\0\t" + bytes(251)),
    (["convert", "-ms-adpcm", "v.au", "v.w64"], "ok 2\n",
     b"riff.\x91\xcf\x11\xa5\xd6(\xdb\x04\xc1\0\0\xb0\x01\0\0\0\0\0\0wave\xf3\xac\xd3\x11\x8c\xd1\0\xc0O\x8e\xdb\x8afmt \xf3\xac\xd3\x11\x8c\xd1\0"
     b"\xc0O\x8e\xdb\x8aJ\0\0\0\0\0\0\0\x02\0\x01\0@\x1f\0\0\0\x10\0\0\0\x01\x04\0 \0\xf4\x01\x07\0\0\x01\0\0\0\x02\0\xff\0\0\0\0\xc0\0@\0\xf0\0\0"
     b"\0\xcc\x010\xff\x88\x01\x18\xff\0\0\0\0\0\0"
     b"fact\xf3\xac\xd3\x11\x8c\xd1\0\xc0O\x8e\xdb\x8a \0\0\0\0\0\0\0\x02\0\0\0\0\0\0\0"
     b"data\xf3\xac\xd3\x11\x8c\xd1\0\xc0O\x8e\xdb\x8a\x18\x01\0\0\0\0\0\0\x02\x10\0\0\xff" + bytes(251)),
    (["concat", "n.wav", "a.wav", "x.wav"], "ok 10\n",
     b"RIFFR\x01\0\0WAVEfmt 2\0\0\0\x02\0\x01\0@\x1f\0\0\0\x10\0\0\0\x01\x04\0 \0\xf4\x01\x07\0\0\x01\0\0\0\x02\0\xff\0\0\0\0\xc0\0@\0\xf0\0\0\0\xcc\x010\xff\x88\x01\x18\xfffact\x04\0\0\0\n\0\0\0data\0\x01\0\0\x06\x15\0\x01\0\x02\0P\xb3\x1bN\x01\xf0\x01\xf0\x1f\x1f\x1f\x10\xf1" + bytes(236)),
    (["interleave", "m.wav", "a.wav", "-o", "x.wav"], "ok 9\n",
     b"RIFF4\x02\0\0WAVEfmt \x14\0\0\0\x11\0\x02\0@\x1f\0\0\xae\x1f\0\0\0\x02\x04\0\x02\0\xf9\x01fact\x04\0\0\0\t\0\0\0data\0\x02\0\0d\0\0\0\x01\0\0\0W\x8f \xc3\t\0\0\0\x9f\x80\x08\x80\0\0\0\0\x80\x80\x80\x80\0\0\0\0\x08\x08\x08\x08\0\0\0\0\x08\x08" + bytes(470)),
]

# the words, and what they print on standard error
REFUSED = [
    # each refusal, in their order
    (["convert", "a.wav", "a.wav"], "snd: a.wav: error 50 SameName\n"),
    (["convert", "no.xyz", "no.xyz"], "snd: no.xyz: error 50 SameName\n"),
    (["convert", "no.wav", "b.xyz"], "snd: b.xyz: error 54 UnknownSuffix\n"),
    (["convert", "no.wav", "x.WAV"], "snd: x.WAV: error 54 UnknownSuffix\n"),
    (["convert", "no.wav", "x.wav"], "snd: no.wav: error 56 MissingFile\n"),
    (["convert", "-override-sample-rate=0", "-pcm24", "a.wav", "v.voc"], "snd: v.voc: error 12 BadRate\n"),
    (["convert", "-override-sample-rate=65536", "a.wav", "v.svx"], "snd: v.svx: error 12 BadRate\n"),
    (["convert", "-pcm24", "a.wav", "v.voc"], "snd: v.voc: error 18 BadPair\n"),
    (["convert", "-pcms8", "a.wav", "v.wav"], "snd: v.wav: error 18 BadPair\n"),
    (["convert", "-pcmu8", "a.wav", "v.sph"], "snd: v.sph: error 18 BadPair\n"),
    (["convert", "-endian=big", "-ulaw", "a.wav", "v.wav"], "snd: v.wav: error 18 BadPair\n"),
    (["convert", "-ima-adpcm", "a.wav", "v.rf64"], "snd: v.rf64: error 18 BadPair\n"),
    (["interleave", "m.wav", "a.wav", "b.wav", "-o", "x.wav"], "snd: x.wav: error 18 BadPair\n"),
    # joined files: the later of equal names
    (["concat", "a.wav", "no.wav", "a.wav"], "snd: a.wav: error 50 SameName\n"),
    (["concat", "a.wav", "r.wav", "no.wav", "x.wav"], "snd: no.wav: error 56 MissingFile\n"),
    (["concat", "a.wav", "s.wav", "r.wav", "x.wav"], "snd: s.wav: error 51 MixedParams\n"),
    (["concat", "r.wav", "a.wav", "x.wav"], "snd: a.wav: error 51 MixedParams\n"),
    (["interleave", "a.wav", "b.wav", "b.wav", "-o", "x.wav"], "snd: b.wav: error 50 SameName\n"),
    (["interleave", "s.wav", "no.wav", "-o", "x.wav"], "snd: no.wav: error 56 MissingFile\n"),
    (["interleave", "a.wav", "r.wav", "s.wav", "-o", "x.wav"], "snd: r.wav: error 51 MixedParams\n"),
    (["interleave", "s.wav", "r.wav", "-o", "x.wav"], "snd: s.wav: error 52 NotMono\n"),
    # texts and fields
    (["metadata-set", "--str-title", "B", "a.wav", "a.wav"], "snd: a.wav: error 50 SameName\n"),
    (["metadata-set", "--str-title", "B", "v.au", "x.wav"], "snd: v.au: error 30 NoChunks\n"),
    (["metadata-set", "--bext-orig-time", "123456789", "a.wav", "x.wav"], "snd: x.wav: error 64 TextTooLong\n"),
    # a bad block comes last
    (["convert", "-pcm16", "p.wav", "q.au"], "snd: p.wav: error 35 BadBlock\n"),
    (["concat", "a.wav", "p.wav", "x.wav"], "snd: p.wav: error 35 BadBlock\n"),
    (["interleave", "a.wav", "p.wav", "-o", "x.wav"], "snd: p.wav: error 35 BadBlock\n"),
    (["metadata-set", "--str-title", "A", "m.wav", "x.wav"], "snd: m.wav: error 20 AdpcmUpdate\n"),
]
