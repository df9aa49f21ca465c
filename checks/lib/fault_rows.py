"""The rows of the check `faults`, written out by hand: runs of which a call fails, and what a power cut may leave of small files."""
from lib.containers_words import PLAIN
from lib.made_rows import CHANGED, GROWN

# a script on the plain file, a line at a time; its answers; and the file once so many lines and a close are carried out
LINES = ["open u a.wav\n", "write 5\n", "seek w 2\n", "write 7\n", "close\n"]
ANSWERS = ["ok 2 1 8000 wave pcm_16_le\n", "ok 1\n", "ok 2\n", "ok 1\n", "ok 3\n"]
STEPS = [PLAIN, PLAIN, CHANGED, CHANGED, GROWN, GROWN]


def of_bytes(whole, size, data):
    """A WAVE file of one channel of 8 bits at 8000 frames a second: the size of the whole, that of the data, and what stands behind the head."""
    return b"RIFF" + bytes([whole, 0, 0, 0]) + b"WAVEfmt \x10\0\0\0\x01\0\x01\0\x40\x1f\0\0\x40\x1f\0\0\x01\0\x08\0data" + bytes([size, 0, 0, 0]) + data


# a WAVE file with a reservation; the same once its first 48 bytes are those of RF64; and once the size of 32 bits says nothing
HEAD = b"fmt \x10\0\0\0\x01\0\x01\0\x40\x1f\0\0\x80\x3e\0\0\x02\0\x10\0data"
SIZES = b"ds64\x1c\0\0\0\x4c\0\0\0\0\0\0\0\x04\0\0\0\0\0\0\0\x02" + bytes(11)
RESERVED = b"RIFF\x4c\0\0\0WAVEJUNK\x1c\0\0\0" + bytes(28) + HEAD + b"\x04\0\0\0\x01\0\xff\xff"
BETWEEN = b"RF64\xff\xff\xff\xffWAVE" + SIZES + HEAD + b"\x04\0\0\0\x01\0\xff\xff"
PROMOTED = b"RF64\xff\xff\xff\xffWAVE" + SIZES + HEAD + b"\xff\xff\xff\xff\x01\0\xff\xff"
LONGER = b"RF64\xff\xff\xff\xffWAVEds64\x1c\0\0\0\x4e\0\0\0\0\0\0\0\x06\0\0\0\0\0\0\0\x03" + bytes(11) + HEAD + b"\xff\xff\xff\xff\x01\0\xff\xff\x05\0"

# what is shown, the lines of a script on a pinned file, the images of the file from before the change to after it, and which of these a
# power cut may leave, in turn
CUTS = [
    # the count is raised once the frame is stable
    ("a frame takes the place of the pad byte", ["seek w 3", "write 5"],
     [of_bytes(40, 3, b"\x80\x81\x7f\0"), of_bytes(40, 3, b"\x80\x81\x7f\x85"), of_bytes(40, 4, b"\x80\x81\x7f\x85")],
     [[0], [0, 1], [1], [1, 2], [2]]),
    # the size of the whole is raised last; in the second image the length is new and the sector is old
    ("a frame and a pad byte are put behind the data", ["seek w 4", "write 2"],
     [of_bytes(40, 4, b"\x80\x81\x7f\x85"), of_bytes(40, 4, b"\x80\x81\x7f\x85\0"), of_bytes(40, 4, b"\x80\x81\x7f\x85\x82"), of_bytes(40, 4, b"\x80\x81\x7f\x85\0\0"),
      of_bytes(40, 4, b"\x80\x81\x7f\x85\x82\0"), of_bytes(40, 5, b"\x80\x81\x7f\x85\x82\0"), of_bytes(42, 5, b"\x80\x81\x7f\x85\x82\0")],
     [[0], [0, 1, 2], [0, 1, 2, 3, 4], [4], [4, 5], [5], [5, 6], [6]]),
    # the size of the whole falls first, and the count before any frame is gone; from the fifth image on the sector is new and the length
    # old, or the other way round
    ("two frames are cut off", ["truncate 3"],
     [of_bytes(42, 5, b"\x80\x81\x7f\x82\x7e\0"), of_bytes(40, 5, b"\x80\x81\x7f\x82\x7e\0"), of_bytes(40, 3, b"\x80\x81\x7f\x82\x7e\0"), of_bytes(40, 3, b"\x80\x81\x7f\0\x7e\0"),
      of_bytes(40, 3, b"\x80\x81\x7f\0\0\0"), of_bytes(40, 3, b"\x80\x81\x7f\x82"), of_bytes(40, 3, b"\x80\x81\x7f\0")],
     [[0], [0, 1], [1], [1, 2], [2], [2, 3], [2, 3, 4, 5, 6], [6]]),
    # from the first write on it is RF64
    ("a file is promoted", ["promote"], [RESERVED, BETWEEN, PROMOTED], [[0], [0, 1], [1], [1, 2], [2]]),
]

# what is shown, the words, the file before, the script, its answers, the file at the end, the frames that may be found where it stopped, and
# how many calls there are at least
AUTO = ["script", "--auto", "a.wav"]
RUNS = [
    ("a script that changes a file", ["script"], PLAIN, "".join(LINES), ANSWERS, GROWN, [[1, -1], [5, -1], [5, -1, 7]], 10),
    ("a script that reads", ["script"], PLAIN, "open r a.wav\nread 2\nclose\n", ["ok 2 1 8000 wave pcm_16_le\n", "ok 2\n1\n-1\n", "ok 2\n"], PLAIN, [[1, -1]], 6),
    # the seals at both ends make five calls each, and the change at least six
    ("a pinned file that grows into its pad byte", AUTO, CUTS[0][2][0], "seek w 3\nwrite 5\n", ["ok 3 1 8000 wave pcm_u8\n", "ok 3\n", "ok 3\n", "ok 1\n"], CUTS[0][2][-1],
     [[0, 1, -1], [0, 1, -1, 5]], 16),
    ("a pinned file that grows", AUTO, CUTS[1][2][0], "seek w 4\nwrite 2\n", ["ok 4 1 8000 wave pcm_u8\n", "ok 4\n", "ok 4\n", "ok 1\n"], CUTS[1][2][-1],
     [[0, 1, -1, 5], [0, 1, -1, 5, 2]], 16),
    ("a pinned file that is cut", AUTO, CUTS[2][2][0], "truncate 3\n", ["ok 5 1 8000 wave pcm_u8\n", "ok 5\n", "ok 3\n"], CUTS[2][2][-1],
     [[0, 1, -1, 2, -2], [0, 1, -1]], 16),
    # a promotion makes nine calls: the seal, two writes, each with its sync
    ("a pinned file that is promoted", AUTO, RESERVED, "promote\n", ["ok 2 1 8000 wave pcm_16_le\n", "ok 2\n", "ok 2\n"], PROMOTED, [[1, -1]], 19),
    ("a file that is promoted and grows", ["script"], RESERVED, "open u a.wav\nauto on\npromote\nseek w 2\nwrite 5\nclose\n",
     ["ok 2 1 8000 wave pcm_16_le\n", "ok 2\n", "ok 2\n", "ok 2\n", "ok 1\n", "ok 3\n"], LONGER, [[1, -1], [1, -1, 5]], 27),
]

# a script whose write is automatic, and its calls: the seal with `auto on`; the data, the count and the size of the whole, each with its
# sync, before the answer; and the seal with `auto off` and the close
AUTOMATIC = ["open u a.wav", "auto on", "seek w 2", "write 5", "close"]
SEAL = [("sync",), ("put", 40, b"\x04\0\0\0"), ("sync",), ("put", 4, b"\x28\0\0\0"), ("sync",)]
SEALED = [("sync",), ("put", 40, b"\x06\0\0\0"), ("sync",), ("put", 4, b"\x2a\0\0\0"), ("sync",)]
EVENTS = [
    ("say", b"ok 2 1 8000 wave pcm_16_le\n"), *SEAL, ("say", b"ok 2\n"), ("say", b"ok 2\n"),
    ("put", 48, b"\x05\0"), ("sync",), ("put", 40, b"\x06\0\0\0"), ("sync",), ("put", 4, b"\x2a\0\0\0"), ("sync",), ("say", b"ok 1\n"),
    *SEALED, ("say", b"ok 3\n"),
]
