# SPDX-License-Identifier: MIT OR Apache-2.0
"""What is noted of frames that come too early or too late. Counted by hand from the formats, as in
`noted.py`: frame i is the first that comes more than a tick and i nanoseconds away from where i
durations lead to from the first one."""
from known_answers.case import Case, Step
from known_answers.matroska import H, block, cluster, element, segment, spell, summed
from known_answers.matroska_tracks import ALL, rated
from known_answers.riffs import lines

SECOND = "02625A00"                                 # 40000000 nanoseconds, 25 frames a second


def number(value, ident="E7"):
    """An element of a number of 8 bytes."""
    return element(ident, value.to_bytes(8, "big"))


def at(*times, first=0):
    """A Cluster of this Timestamp, with blocks of these times after it."""
    return cluster(number(first), *(block(f"81 {time % 65536:04X} 80") for time in times))


def timed(*clusters, duration=SECOND, info=(b"",)):
    """A file of these Clusters, of frames that last so long, with Info of these, or without Info."""
    tracks = element("1654AE6B", rated(duration) if duration else ALL, length=8)
    return H + segment(element("1549A966", *info, length=8) if info else b"", tracks, *clusters)


def scale(value):
    return number(value, "2AD7B1")


def rate(duration, count):
    """A file of frames at a rate, each at the nearest millisecond."""
    times = [(k * duration + 500000) // 1000000 for k in range(count)]
    return timed(*(at(0, first=time) for time in times), duration=f"{duration:08X}")


TITLE = element("7BA9", b"a title")
LATE = element("EC", bytes(4080), length=2)         # 4083 bytes; a scale has 12
LATER = element("EC", bytes(4082), length=2)

ROWS = [
    # rates whose milliseconds are whole, and whose are not
    ("25", rate(40000000, 9), 9, None), ("24", rate(41666667, 9), 9, None),
    ("29.97", rate(33366667, 9), 9, None), ("59.94", rate(16683333, 30), 30, None),
    ("1000", rate(1000000, 9), 9, None),
    # 40 ms each: a tick more or less is not noted, nor a nanosecond for each frame
    ("one tick late", timed(at(0, 41)), 2, None), ("two ticks late", timed(at(0, 42)), 2, 1),
    ("one tick early", timed(at(0, 39)), 2, None), ("two ticks early", timed(at(0, 38)), 2, 1),
    ("a tick and a nanosecond late", timed(at(0, 41), duration="026259FF"), 2, None),
    ("a tick and two nanoseconds late", timed(at(0, 41), duration="026259FE"), 2, 1),
    ("a gap", timed(at(0, 40, 80, 160)), 4, 3), ("a frame twice", timed(at(0, 40, 40)), 3, 2),
    ("falling", timed(at(0, 80, 40)), 3, 1), ("falling by one frame", timed(at(40, 0)), 2, 1),
    ("the first of two", timed(at(0, 40, 200, 300)), 4, 2),
    # the first frame is where the count begins
    ("from 1000 on", timed(at(0, 40, first=1000)), 2, None),
    ("from -40 on", timed(at(-40, 0, 40, first=0)), 3, None),
    ("below the Timestamp", timed(at(-32768, -32728, first=32768)), 2, None),
    ("above it", timed(at(32767, first=0), at(0, first=32807)), 2, None),
    ("of two Clusters", timed(at(0), at(0, first=40), at(-20, first=100)), 3, None),
    ("of one without a Timestamp", timed(at(0), cluster(block("81 0028 80"))), 2, None),
    ("of a Timestamp of no bytes", timed(at(0, first=9), cluster("E780", block("81 0031 80"))), 2, None),
    ("of one after its block", timed(cluster(block(), number(1000), block("81 0028 80"))), 2, 1),
    ("in a BlockGroup", timed(at(0), cluster(number(0), element("A0", "9B8128", "A189 81 0028 80",
                                                                 block()[6:]))), 2, None),
    ("past 2^64 - 1", timed(at(0, 0, first=2 ** 64 - 1)), 2, 1),
    # what the tick is
    ("a tick of 1 ns", timed(at(0, first=0), at(0, first=40000000), info=[scale(1)]), 2, None),
    ("a tick of 1 ns, 3 late", timed(at(0), at(0, first=40000003), info=[scale(1)]), 2, 1),
    ("a tick of a frame", timed(at(0, 1, 2), info=[scale(40000000)]), 3, None),
    ("a tick of a frame, late", timed(at(0, 1, 4), info=[scale(40000000)]), 3, 2),
    ("a tick after a title", timed(at(0, 1), info=[TITLE, scale(40000000)]), 2, None),
    ("a tick after a CRC-32", timed(at(0, 1), info=[summed(TITLE, scale(40000000))]), 2, None),
    ("a tick of no bytes", timed(at(0, 40), info=["2AD7B180"]), 2, None),
    ("a tick of no bytes, late", timed(at(0, 42), info=["2AD7B180"]), 2, 1),
    ("a tick of 0", timed(at(0, 4000), info=[scale(0)]), 2, None),
    ("a tick of 9 bytes", timed(at(0, 4000), info=["2AD7B189 000000000000000001"]), 2, None),
    ("no tick", timed(at(0, 42), info=[TITLE]), 2, 1),
    ("an Info of no bytes", timed(at(0, 42), info=[b""]), 2, 1),
    ("no Info", timed(at(0, 42), info=()), 2, None),
    ("a tick after what can't be read", timed(at(0, 42), info=[TITLE, "EC8F", scale(1)]), 2, None),
    ("a tick in the first 4096 bytes after the title", timed(at(0, 40), info=[TITLE, LATE, scale(1)]), 2, 1),
    ("a tick that passes these", timed(at(0, 42), info=[TITLE, LATER, scale(1)]), 2, None),
    ("two of Info", timed(element("1549A966", scale(1), length=8), at(0, 1),
                          info=[scale(40000000)]), 2, 1),
    ("Info after the first Cluster", timed(at(0, 1), element("1549A966", scale(40000000), length=8),
                                           info=()), 2, None),
    # what is not judged
    ("no duration", timed(at(0, 4000), duration=""), 2, None),
    ("a duration of 0", timed(at(0, 4000), duration="00"), 2, None),
    ("one frame", timed(at(9)), 1, None),
]


def times():
    """What each file's frames leave to be noted; --all does not look at times."""
    for name, file, count, off in ROWS:
        note = "" if off is None else f"92 Times frame {off}"
        yield Case(f"times: {name}", {"in": file}, [
            Step(["check", "in"], lines(count, f"frames {count}\n"), note=note),
            Step(["check", "--all", "in"], lines(count, f"frames {count} faults 0\n")),
            Step(["check", "--notes-as-faults", "in"], lines(count, f"frames {count}\n"), note=note,
                 status=1 if note else 0)])


CASES = [times]
