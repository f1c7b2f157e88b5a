# SPDX-License-Identifier: MIT OR Apache-2.0
"""Commands on pictures whose slices code samples of chroma twice, as FFmpeg's slices do."""
from known_answers.case import Case, Step

# options of `pack`, text, bytes of the payload, line of `check`, lines of `show`
PICTURES = [
    (["--columns", "2", "--ec", "0"],
     "595556344D504547322057322048312046303A3020493F2041303A3020433432320A4652414D450A01020506",
     14, "frame 0: 14 bytes, 2 slices, 56 decisions",
     "size 2x1\ncoder 1\ncolour YCbCr\nchroma 1,0\nslices 2x1\ncontexts 666\nec 0\nintra 1\n"
     "rate 0/0\nheld states 85248 samples 6 output 2 columns 2 offsets 1025\n"),
    # Two lines of chroma are kept, 6 samples.
    (["--columns", "2", "--rows", "2", "--ec", "0"],
     "595556344D504547322057362048362046303A3020493F2041303A3020433432306A7065670A4652414D450A"
     "00070E151C232A31383F464D545B626970777E858C939AA1A8AFB6BDC4CBD2D9E0E7EEF50A141E28323C4650"
     "5A0B151F29333D47515B",
     96, "frame 0: 96 bytes, 4 slices, 679 decisions",
     "size 6x6\ncoder 1\ncolour YCbCr\nchroma 1,1\nslices 2x2\ncontexts 666\nec 0\nintra 1\n"
     "rate 0/0\nheld states 85248 samples 24 output 6 columns 2 offsets 1025\n"),
]


def shared_pictures():
    """Each is packed, checked, shown, and comes back; of Matroska `show` says the Segment, too."""
    for options, text, size, frame, shown in PICTURES:
        given = {"in": bytes.fromhex(text)}
        for out, show in [("out.avi", [Step(["show", "out.avi"], shown)]), ("out.mkv", [])]:
            yield Case(f"slices that share chroma: {out} {' '.join(options)}", given, [
                Step(["pack", *options, "in", out], f"frames 1 bytes {size}\n"),
                Step(["check", out], f"{frame}\nframes 1\n"),
                *show,
                Step(["unpack", out, "back"], "frames 1\n"),
            ], {"back": given["in"]})


CASES = [shared_pictures]
