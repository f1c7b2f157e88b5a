# SPDX-License-Identifier: MIT OR Apache-2.0
"""What `info` tells of files: sound ones, refused ones, and such as are none."""
from known_answers.case import FRAME, Case, Step, avi, one
from known_answers.matroska import C, H, T, element, segment, spell
from known_answers.objects import fault

TRACKS = 'track 1             video, "FFV1", unknown\n'
HEAD = """size                1x1
rate                25/1
range               unknown
siting              unknown
primaries           unknown
transfer            unknown
matrix              unknown
"""
RECORD = """bits                8
colours             YCbCr
chroma              mono
transparency        no
slices              1x1
coder               range coder, default table
contexts            666 (small)
parity              no
key_frames          yes
"""
PICTURE = """fields              unknown
sample_aspect       unknown
display_aspect      unknown
"""
OBJECT = ('"container":"AVI","application":null,"duration":0.120,"frames":3,'
          '"tracks":[{"kind":"video","codec":"FFV1","language":null}],"size":[1,1],"rate":[25,1],'
          '"range":null,"siting":null,"primaries":null,"transfer":null,"matrix":null')
RECORD_OBJECT = ('"bits":8,"colours":"YCbCr","chroma":"mono","transparency":false,"slices":[1,1],'
                 '"coder":"range coder, default table","contexts":[666],'
                 '"context_names":["small"],"parity":false,"key_frames":true')
PICTURE_OBJECT = '"fields":null,"sample_aspect":null,"display_aspect":null'


def outline(frames):
    """What the beginning of an AVI of so many frames says, of which a second has 25."""
    return (f"container           AVI\napplication         unknown\n"
            f"duration            0.{40 * frames:03} s\nframes              {frames}\n{TRACKS}")


def facts():
    """Facts of an AVI, each group as far as the file is sound."""
    given = {"a": avi(one(), [FRAME] * 3), "b": avi(one(), [bytes(3), FRAME]),
             "c": avi(one(), [FRAME, bytes(3)])[:-1], "d": avi(one(), []), "e": b"", "f": b"no file",
             "g": avi(one(coder=0), [bytes.fromhex("FC9B80000003")])}
    rest = HEAD + RECORD + PICTURE
    whole_a = outline(3) + rest
    of_b = OBJECT.replace("0.120", "0.080").replace('"frames":3', '"frames":2')
    counted = "counted_frames      3\ncounted_duration    0.120 s\n"
    yield Case("info", given, [
        Step(["info", "a"], whole_a),
        Step(["info", "a", "--count"], whole_a + counted),
        Step(["info", "--json", "a"],
             f'{{"path":"a",{OBJECT},{RECORD_OBJECT},{PICTURE_OBJECT},"fault":null}}\n'),
        Step(["info", "b"], outline(2) + HEAD + RECORD, "30 NotKey"),
        Step(["info", "--json", "b"],
             f'{{"path":"b",{of_b},{RECORD_OBJECT},"fault":{fault(30, "NotKey")}}}\n', "30 NotKey"),
        Step(["info", "c"], outline(2) + rest),
        Step(["info", "--count", "c"], outline(2) + rest, "52 Truncated"),
        Step(["info", "--count", "d"],
             outline(0) + rest + "counted_frames      0\ncounted_duration    0.000 s\n"),
        Step(["info", "e"], "container           unknown\n", "52 Truncated"),
        Step(["info", "f"], "container           unknown\n", "52 Truncated"),
        Step(["info", "--json", "no"], f'{{"path":"no","fault":{fault(56, "Read")}}}\n', "56 Read"),
        Step(["info", "f", "no", "a"],
             f"file f\ncontainer           unknown\nfile no\nfile a\n{whole_a}", status=1,
             errors="ffv1: f: 52 Truncated\nffv1: no: 56 Read\n")], given)
    yield Case("info of Golomb-Rice", given, [
        Step(["info", "g"], outline(1) + HEAD
             + RECORD.replace("range coder, default table", "Golomb-Rice coder")
             + PICTURE.replace("aspect       unknown", "aspect       1:1").replace("aspect      unknown", "aspect      1:1"))],
               given)


MATROSKA = """container           Matroska
application         unknown
duration            unknown
frames              unknown
"""


def voids():
    """Of a Matroska file, Voids before its Segment are passed, and no other element."""
    rest = HEAD.replace("25/1", "unknown") + RECORD + PICTURE
    track = 'track 1             video, "V_FFV1", "eng"\n'
    begin = {"a": "EC 81 00 EC 80", "b": "EC 4003 010203", "c": "EC 80 BF 80", "d": "EC FF 0000"}
    given = {name: H + spell(bytes) + segment(T, C) for name, bytes in begin.items()}
    given["e"] = given["a"].replace(b"matroska", b"webm\0\0\0\0")
    yield Case("info of Voids", given, [
        Step(["info", "a"], MATROSKA + track + rest),
        Step(["info", "b"], MATROSKA + track + rest),
        Step(["info", "c"], MATROSKA, "80 NotMatroska"),
        Step(["info", "d"], MATROSKA, "81 BadElement"),
        Step(["info", "e"], MATROSKA.replace("Matroska", "WebM") + track, "80 NotMatroska")], given)


def late_tracks():
    """Of a Matroska file whose Tracks stand behind Clusters, among its first 2^20 bytes or after them:
    those alone tell of tracks."""
    rest = HEAD.replace("25/1", "unknown") + RECORD + PICTURE
    track = 'track 1             video, "V_FFV1", "eng"\n'
    given = {"a": H + segment(C, T, C), "b": H + segment(C, element("EC", bytes(1 << 20), length=4), T, C),
             "c": H + segment(C, C)}
    yield Case("info of Tracks behind Clusters", given, [
        Step(["info", "a"], MATROSKA + track + rest),
        Step(["info", "--count", "a"], MATROSKA + track + rest
             + "counted_frames      2\ncounted_duration    unknown\n"),
        Step(["info", "--count", "b"], MATROSKA + rest
             + "counted_frames      2\ncounted_duration    unknown\n"),
        Step(["info", "c"], MATROSKA, "82 NoTracks")], given)


CASES = [facts, voids, late_tracks]
