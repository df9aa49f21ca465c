"""Words and scripts over small WAVE files that were written by hand, heads of these that are cut or damaged, and what is answered."""

# one channel and two frames of 16 bits, 1 and -1, at 8000 frames a second
PLAIN = b"RIFF\x28\x00\x00\x00WAVEfmt \x10\x00\x00\x00\x01\x00\x01\x00\x40\x1f\x00\x00\x80\x3e\x00\x00\x02\x00\x10\x00data\x04\x00\x00\x00\x01\x00\xff\xff"
# one channel and three frames of 8 bits, 0, 1 and -1, without its pad byte
BYTES = b"RIFF\x28\x00\x00\x00WAVEfmt \x10\x00\x00\x00\x01\x00\x01\x00\x40\x1f\x00\x00\x40\x1f\x00\x00\x01\x00\x08\x00data\x03\x00\x00\x00\x80\x81\x7f"
# the first file with a title behind its data
TITLED = b"RIFF\x3e\x00\x00\x00WAVEfmt \x10\x00\x00\x00\x01\x00\x01\x00\x40\x1f\x00\x00\x80\x3e\x00\x00\x02\x00\x10\x00data\x04\x00\x00\x00\x01\x00\xff\xffLIST\x0e\x00\x00\x00INFOINAM\x02\x00\x00\x00A\x00"

DESCRIPTION = "name a.wav\nkind wave\ncodec pcm_16_le\nchannels 1\nrate 8000\nframes 2\nduration 00:00:00.000\n"

# the words, the file that stands as `a.wav`, standard output, standard error, and the status
WORDS = [
    (["info", "a.wav"], PLAIN, DESCRIPTION, "", 0),
    (["info", "a.wav"], TITLED, "name a.wav\nkind wave\ncodec pcm_16_le\nchannels 1\nrate 8000\nframes 2\nduration 00:00:00.000\nchunk LIST 14\nstring title A\n", "", 0),
    (["info", "no.wav", "a.wav", "no.wav"], PLAIN, DESCRIPTION, "snd: no.wav: error 56 MissingFile\nsnd: no.wav: error 56 MissingFile\n", 1),
    (["--version"], PLAIN, "snd 0.1.0\n", "", 0),
    (["info", "no.wav"], PLAIN, "", "snd: no.wav: error 56 MissingFile\n", 1),
]

BAD_WORDS = [
    [],
    ["info"],
    ["info", "a.wav", "-a.wav"],
    ["--help", "a.wav"],
    ["--Version"],
    ["convert", "a.wav"],
    ["convert", "a.wav", "b.au", "-pcm16"],
    ["convert", "-pcm16", "-pcm24", "a.wav", "b.au"],
    ["convert", "-endian=big", "-endian=little", "a.wav", "b.au"],
    ["concat", "a.wav", "c.wav"],
    ["Info", "a.wav"],
    ["info", "-a.wav"],
    ["info", "a b"],
    ["info", ""],
    ["script", "a.wav"],
    ["scripts"],
    ["script", "--auto"],
    ["script", "--auto", "-a.wav"],
    ["script", "--Auto", "a.wav"],
    ["script", "--auto", "a.wav", "a.wav"],
]

# up to so many bytes of a file, the reason why it is refused
PREFIXES = [
    (11, "snd: a.wav: error 1 NotSound\n"),
    (35, "snd: a.wav: error 6 NoFormat\n"),
    (43, "snd: a.wav: error 7 NoData\n"),
]

# a place of the first file, the byte that stands there in the place of the right one, and what is printed
DAMAGES = [
    (0, ord("r"), "snd: a.wav: error 1 NotSound\n"),
    (11, ord("A"), "snd: a.wav: error 1 NotSound\n"),
    (15, ord("t"), "snd: a.wav: error 6 NoFormat\n"),
    (16, 15, "snd: a.wav: error 6 NoFormat\n"),
    (16, 18, "snd: a.wav: error 7 NoData\n"),
    (36, ord("D"), "snd: a.wav: error 7 NoData\n"),
    (20, 0, "snd: a.wav: error 9 UnknownCodec\n"),
    (20, 3, "snd: a.wav: error 10 FloatSamples\n"),
    (22, 0, "snd: a.wav: error 11 BadChannels\n"),
    (23, 1, "snd: a.wav: error 11 BadChannels\n"),
    (34, 12, "snd: a.wav: error 13 BadBits\n"),
    (32, 4, "snd: a.wav: error 14 BadAlign\n"),
    (34, 8, "snd: a.wav: error 14 BadAlign\n"),
    (3, ord("X"), "snd: a.wav: error 1 NotSound\n"),
]

# a script, the file that stands as `a.wav`, the answers, and the status
SCRIPTS = [
    ("open r a.wav\nread 3\n", BYTES,
     "ok 3 1 8000 wave pcm_u8\nok 3\n0\n1\n-1\n", 0),
    ("", PLAIN,
     "", 0),
    ("\n  \n# open r a.wav\n", PLAIN,
     "", 0),
    ("open r a.wav\nread 1024\nread 1\nclose\n", PLAIN,
     "ok 2 1 8000 wave pcm_16_le\nok 2\n1\n-1\nok 0\nok 2\n", 0),
    ("open r a.wav\ninfo\nseek r 1\nread 1", PLAIN,
     "ok 2 1 8000 wave pcm_16_le\nok 2 1 8000 wave pcm_16_le\nok 1\nok 1\n-1\n", 0),
    ("open r a.wav\nseek rw 2\nseek r 3\nread 1\nseek r 007\n", PLAIN,
     "ok 2 1 8000 wave pcm_16_le\nok 2\nerror 24 SeekRange\nok 0\nerror 24 SeekRange\n", 1),
    ("read 1\ninfo\nclose\nseek r 0\n", PLAIN,
     "error 42 NotOpen\nerror 42 NotOpen\nerror 42 NotOpen\nerror 42 NotOpen\n", 1),
    ("open r a.wav\nopen r a.wav\nclose\nclose\n", PLAIN,
     "ok 2 1 8000 wave pcm_16_le\nerror 43 AlreadyOpen\nok 2\nerror 42 NotOpen\n", 1),
    ("open r no.wav\nopen r -\n", PLAIN,
     "error 56 MissingFile\nerror 56 MissingFile\n", 1),
    ("read 1025\nseek r 9223372036854775808\nopen r\ninfo\t\nseek r -1\nseek r 00000000000000000000\n", PLAIN,
     "error 40 BadCommand\nerror 40 BadCommand\nerror 40 BadCommand\nerror 40 BadCommand\nerror 40 BadCommand\nerror 40 BadCommand\n", 1),
    ("create au pcm_8 1 1 a\ncreate wave ima 3 8000 a\ntap peak\nget chunks\nseek w 0\n", PLAIN,
     "error 40 BadCommand\nerror 18 BadPair\nerror 42 NotOpen\nerror 42 NotOpen\nerror 42 NotOpen\n", 1),
    # each frame that is read is fed to each tap that is on, and one that was dropped never comes back
    ("open r a.wav\ntap peak\ntap energy\ntap peak\nread 2\nuntap peak\nuntap energy\nuntap peak\ntap peak\n", PLAIN,
     "ok 2 1 8000 wave pcm_16_le\nok\nok\nerror 46 TapOn\nok 2\n1\n-1\nok peak 2 1\nok energy 2 2\nerror 45 NoSuchTap\nerror 45 NoSuchTap\n", 1),
    # at `close` it waits again, and begins anew; a read that is refused feeds none
    ("open r a.wav\ntap clips\nread 1\nclose\nuntap clips\nopen r a.wav\nuntap clips\ntap clips\nread 1025\nread 1\nread 5\nread 1\nuntap clips\n", PLAIN,
     "ok 2 1 8000 wave pcm_16_le\nok\nok 1\n1\nok 2\nerror 42 NotOpen\nok 2 1 8000 wave pcm_16_le\nerror 45 NoSuchTap\nok\nerror 40 BadCommand\nok 1\n1\nok 1\n-1\nok 0\nok clips 2 0\n", 1),
    ("open r a.wav\nseek r 9223372036854775807\nseek r 0000000000000000001\nread 2\n", PLAIN,
     "ok 2 1 8000 wave pcm_16_le\nerror 24 SeekRange\nok 1\nok 1\n-1\n", 1),
    ("  open   r  a.wav  \n info \n", PLAIN,
     "ok 2 1 8000 wave pcm_16_le\nok 2 1 8000 wave pcm_16_le\n", 0),
]

# a script that makes a file `b` of one channel and three frames of 8 bits, and what it is answered: the ends of the range are those of the
# codec
MAKING = ("create wave pcm_s8 1 8000 b\ncreate au pcm_s8 1 8000 b\nwrite -128 127 5\nclose\nopen r b\ntap clips\ntap peak\nread 3\nuntap clips\nuntap peak\n",
          "error 18 BadPair\nok 0 1 8000 au pcm_s8\nok 3\nok 3\nok 3 1 8000 au pcm_s8\nok\nok\nok 3\n-128\n127\n5\nok clips 3 2\nok peak 3 128\n")

# a comment of so many bytes, what it is answered, and the status
LINES = [
    (4096, "", 0),
    (4097, "error 41 LineTooLong\n", 1),
    (20000, "error 41 LineTooLong\n", 1),
    (16777216, "error 41 LineTooLong\n", 1),
]
