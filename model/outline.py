# SPDX-License-Identifier: MIT OR Apache-2.0
"""What a file says of itself beside its video, by its first bytes: its container, what wrote it, how
long it lasts, its tracks. Nothing is refused: what is not found is not known."""
import math
import struct

import ebml
from ffv1 import Fault

MOST = 1 << 20                  # own: how many bytes are looked at
DOC_TYPE, SEGMENT = 0x4282, b"\x18\x53\x80\x67"
INFO, TRACKS, TRACK_ENTRY = 0x1549A966, 0x1654AE6B, 0xAE
WRITING_APP, DURATION, TIMESTAMP_SCALE = 0x5741, 0x4489, 0x2AD7B1
TRACK_TYPE, CODEC_ID, LANGUAGE, LANGUAGE_BCP47 = 0x83, 0x86, 0x22B59C, 0x22B59D
KINDS = {1: "video", 2: "audio", 17: "subtitles"}
STREAMS = {b"vids": "video", b"auds": "audio", b"txts": "subtitles"}


class Facts:
    """Facts that are told: a line each, the name and its value, or members of an object of JSON."""

    def __init__(self, out, is_json):
        self.out, self.json = out, is_json

    def tell(self, name, text, json_text):
        self.out(f',"{name}":{json_text}' if self.json else f"{name:20}{text}\n")

    def unknown(self, name):
        self.tell(name, "unknown", "null")

    def word(self, name, word):
        self.tell(name, word, f'"{word}"')

    def number(self, name, number):
        self.tell(name, number, number)

    def pair(self, name, first, sign, second):
        self.tell(name, f"{first}{sign}{second}", f"[{first},{second}]")

    def truth(self, name, truth):
        self.tell(name, "yes" if truth else "no", "true" if truth else "false")

    def named(self, name, word, number):
        self.word(name, word) if word else self.number(name, number)

    def string(self, name, data):
        """A string of the file, unknown if it is empty."""
        self.tell(name, known_string(data, False), known_string(data, True))

    def seconds(self, name, milliseconds):
        """A time, unknown if there is none."""
        if milliseconds is None:
            return self.unknown(name)
        text = f"{milliseconds // 1000}.{milliseconds % 1000:03}"
        return self.tell(name, f"{text} s", text)


def unknown(is_json):
    return "null" if is_json else "unknown"


def known_string(data, is_json):
    return quoted(data) if data else unknown(is_json)


ESCAPES = {8: "\\b", 9: "\\t", 10: "\\n", 12: "\\f", 13: "\\r", 34: '\\"', 92: "\\\\"}


def masked(data):
    """Bytes of which those of control characters from U+007F to U+009F are no UTF-8."""
    before = b"\0" + data
    return bytes(255 if byte == 0x7F or last == 0xC2 and 0x80 <= byte < 0xA0 else byte
                 for last, byte in zip(before, data))


def quoted(data):
    """A string of JSON (RFC 8259, 7) of the bytes of a file; U+FFFD for what is no UTF-8, and for
    control characters that JSON has as they are."""
    text = masked(data).decode("utf-8", "replace")
    inner = [ESCAPES.get(ord(letter)) or (f"\\u{ord(letter):04x}" if letter < " " else letter)
             for letter in text]
    return f'"{"".join(inner)}"'


# ----------------------------------------------------------------------------------------- Matroska

def child(content, ident):
    """The content of the first child with this ID, or no bytes."""
    try:
        return ebml.find(content, ident) or b""
    except Fault:
        return b""


def text(data):
    return data.split(b"\0")[0]


def header_content(data):
    """The content of the first element, the EBML header, if it can be read."""
    try:
        return next((content for _, content in ebml.elements(data)), b"")
    except Fault:
        return b""


def after_voids(data):
    """What comes after the Voids that some bytes begin with."""
    source, end = ebml.in_memory(data), 0
    try:
        while end < len(data):
            ident, size, _ = ebml.known(ebml.get_header(source, len(data) - end))
            if ident != ebml.VOID:
                break
            source.exactly(size, 52)
            end = source.position
    except Fault:
        pass
    return data[end:]


def segment_content(data):
    """What stands behind the ID and the size of the Segment, however long that says it is; the Segment
    is what comes after the EBML header and Voids."""
    source = ebml.in_memory(data)
    try:
        source.exactly(ebml.known(ebml.get_header(source, len(data)))[1], 52)
    except Fault:
        return b""
    rest = after_voids(data[source.position:])
    if rest[:4] != SEGMENT:
        return b""
    return rest[4 + ebml.length_of(rest[4]):] if len(rest) > 4 else b""


def entries(content):
    """The entries of Tracks, up to one that cannot be read."""
    try:
        for ident, entry in ebml.elements(content):
            if ident == TRACK_ENTRY:
                yield entry
    except Fault:
        return


def kind_of(entry, is_json):
    """The TrackType of an entry, which is above 0."""
    data = child(entry, TRACK_TYPE)
    number = int.from_bytes(data, "big") if len(data) <= 8 else 0
    if number in KINDS:
        return worded(KINDS[number], is_json)
    return str(number) if number else unknown(is_json)


def worded(word, is_json):
    return f'"{word}"' if is_json else word


def fitting(top, bottom):
    """A quotient to the nearest number, from a half on the next one, if it has room in 64 bits."""
    number = (2 * top + bottom) // (2 * bottom)
    return number if number < 2 ** 64 else None


def lasts(info):
    """The milliseconds of a Duration, by its scale; none of a number that is negative, or none."""
    data, scale = child(info, DURATION), child(info, TIMESTAMP_SCALE)
    if len(data) not in (4, 8) or len(scale) > 8:
        return None
    value = struct.unpack(">f" if len(data) == 4 else ">d", data)[0]
    if not math.isfinite(value) or data[0] >= 0x80:
        return None
    top, bottom = value.as_integer_ratio()
    return fitting(top * (int.from_bytes(scale, "big") if scale else 1000000), bottom * 1000000)


def of_matroska(data, facts):
    content = segment_content(data)
    info = child(content, INFO)
    facts.string("application", text(child(info, WRITING_APP)))
    facts.seconds("duration", lasts(info))
    facts.unknown("frames")
    rows = [(kind_of(entry, facts.json), known_string(text(child(entry, CODEC_ID)), facts.json),
             quoted(text(child(entry, LANGUAGE_BCP47)) or text(child(entry, LANGUAGE)) or b"eng"))
            for entry in entries(child(content, TRACKS))]
    tell_tracks(facts, rows)


def tell_tracks(facts, rows):
    """A line of each track, or an array of objects."""
    if facts.json:
        items = ",".join(f'{{"kind":{kind},"codec":{codec},"language":{language}}}'
                         for kind, codec, language in rows)
        facts.out(f',"tracks":[{items}]')
        return
    for number, row in enumerate(rows, 1):
        facts.out(f"{f'track {number}':20}{', '.join(row)}\n")


# ---------------------------------------------------------------------------------------------- AVI

def chunks_of(data):
    """The chunks of some bytes, with what is there of each: a list by its own name."""
    while len(data) >= 8:
        name, size = data[:4], struct.unpack("<I", data[4:8])[0]
        content, data = data[8:8 + size], data[8 + size + size % 2:]
        yield (content[:4], content[4:]) if name == b"LIST" else (name, content)


def chunk(data, wanted):
    """The content of the first chunk or list of this name, or no bytes."""
    return next((content for name, content in chunks_of(data) if name == wanted), b"")


def stream_of(content, is_json):
    """The kind and the codec of a stream, by its header and its format."""
    header, form = chunk(content, b"strh"), chunk(content, b"strf")
    kind, handler = header[:4], header[4:8]
    said = worded(STREAMS[kind], is_json) if kind in STREAMS else known_string(kind, is_json)
    if kind == b"vids":
        return said, known_string(text(form[16:20]), is_json), unknown(is_json)
    if kind == b"auds":
        tag = str(struct.unpack("<H", form[:2])[0]) if len(form) >= 2 else unknown(is_json)
        return said, tag, unknown(is_json)
    return said, known_string(text(handler), is_json), unknown(is_json)


def of_avi(data, facts):
    riff = data[12:]
    streams = [content for name, content in chunks_of(chunk(riff, b"hdrl")) if name == b"strl"]
    headers = [chunk(content, b"strh") for content in streams]
    video = next((header for header in headers if header[:4] == b"vids"), b"")
    frames, time = None, None
    if len(video) >= 36:
        scale, rate, _, frames = struct.unpack("<4I", video[20:36])
        time = fitting(1000 * frames * scale, rate) if rate else None
    facts.string("application", text(chunk(chunk(riff, b"INFO"), b"ISFT")))
    facts.seconds("duration", time)
    facts.unknown("frames") if frames is None else facts.number("frames", frames)
    tell_tracks(facts, [stream_of(content, facts.json) for content in streams])


def outline(data, facts):
    """What the beginning of a file says."""
    if data[:4] == b"\x1a\x45\xdf\xa3":
        is_webm = text(child(header_content(data), DOC_TYPE)) == b"webm"
        facts.word("container", "WebM" if is_webm else "Matroska")
        of_matroska(data, facts)
    elif data[:4] == b"RIFF" and data[8:12] == b"AVI ":
        facts.word("container", "AVI")
        of_avi(data, facts)
    elif data[4:8] == b"ftyp":
        facts.word("container", "QuickTime")
    elif data[:4] == b"\x06\x0e\x2b\x34":
        facts.word("container", "MXF")
    else:
        facts.unknown("container")
