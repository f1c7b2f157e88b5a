# SPDX-License-Identifier: MIT OR Apache-2.0
"""What a known answer is, and the texts, files and payloads that they are about."""
import avi_format
import ffv1

ANY = None      # an output that is not compared


def fault_of(action):
    """The number of the fault that an action meets, or none."""
    try:
        action()
    except ffv1.Fault as fault:
        return fault.number
    return None


class Step:
    """One command line: its standard output, and the fault on standard error; or status 2, and
    clap's text there; or what is said there, as the count where standard output has what OUT
    would; and behind that, before the fault, what is noted."""

    def __init__(self, words, output="", fault="", status=None, errors=None, note=""):
        self.words, self.output = words, output
        self.status = status if status is not None else 1 if fault else 0
        said = errors if errors is not None else ANY if status is not None and not note else ""
        noted = f"ffv1: note {note}\n" if note else ""
        self.errors = f"{noted}ffv1: {fault}\n" if fault else said + noted if note else said


def kept(words, why):
    """A command line whose files are refused, which is a line on standard error."""
    return Step(words, "", why, status=2)


def helped(words):
    """A command line that asks for help, which is clap's text on standard error."""
    return Step(words, status=0)


class Case:
    """Steps one after the other, in a folder of these files, and what files hold then; one that is
    None is not there."""

    def __init__(self, name, given, steps, left=None):
        self.name, self.given, self.steps, self.left = name, given, steps, left or {}


# -------------------------------------------------------------------------------------------- texts

def y4m(tags, *pictures):
    return b"YUV4MPEG2 " + tags.encode() + b"\n" + b"".join(b"FRAME\n" + p for p in pictures)


def ppm(width, height, samples):
    return b"P6\n%d %d\n255\n" % (width, height) + samples


def mono(width, height, samples):
    """The canonical text of a mono picture."""
    return y4m(f"W{width} H{height} F0:0 I? A0:0 Cmono", bytes(samples))


MONO = mono(1, 1, [0])
RED = ppm(1, 1, b"\xff\0\0")


# -------------------------------------------------------------------------------------------- files

FRAME = bytes.fromhex("FE7B000002")     # the picture MONO, without parity


def avi(config, payloads, rate=25, scale=1):
    """The file of frames with these payloads."""
    record = ffv1.write_record(config)
    head = avi_format.AviHead(config.width, config.height, rate, scale, record)
    return avi_format.write_avi(head, payloads)


def one(**changes):
    """The configuration of mono pictures of 1 by 1 without parity, so changed."""
    return ffv1.Config(**{"width": 1, "height": 1, "ec": 0, **changes})


def sealed(config, *slices):
    """A payload of these coded bytes, each with its footer."""
    return b"".join(coded + ffv1.footer(coded, config.ec) for coded in slices)


def coded(config, slice, residuals, too_long=False, head=None):
    """The coded bytes of a slice, decision by decision: its head and these residuals, all by the
    context 0; and after them, where it is so, a symbol of 31 exponent ones."""
    encoder = ffv1.Encoder(config.table())
    if slice == 0:
        encoder.put("key", 1)
    for value in head or ffv1.place_of(config, slice) + [0] * (ffv1.index_count(config) + 3):
        ffv1.put_number(encoder, "head", value)
    for residual in residuals:
        ffv1.put_number(encoder, ("sample", 0, 0), residual, signed=True)
    if too_long:
        put_too_long(encoder, ("sample", 0, 0))
    return encoder.sentinel()


def put_too_long(encoder, base):
    """A symbol that is refused: 31 exponent ones."""
    encoder.put((base, 0), 0)
    for k in range(31):
        encoder.put((base, 1 + min(k, 9)), 1)


def checked(name, file, output, fault="", note=""):
    """A file that is checked."""
    return Case(name, {"in": file}, [Step(["check", "in"], output, fault, note=note)], {"in": file})
