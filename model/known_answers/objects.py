# SPDX-License-Identifier: MIT OR Apache-2.0
"""What becomes of files that are checked, as objects of JSON."""
from known_answers.case import ANY, FRAME, Case, Step, avi, one
from known_answers.lists import GOOD, TEXT

PLACES = ["frame", "slice", "byte", "line"]


def fault(number, name, **place):
    """A fault as an object."""
    members = ",".join(f'"{name}":{place.get(name, "null")}' for name in PLACES)
    return f'{{"number":{number},"name":"{name}",{members}}}'


def verdict(path, frames, faults, first="null"):
    """The line of a file."""
    sound = "true" if first == "null" else "false"
    return f'{{"path":"{path}","sound":{sound},"frames":{frames},"faults":{faults},"fault":{first}}}\n'


def checked():
    """Files that are sound, refused, cut short, and not there."""
    given = {"a": avi(one(), [FRAME]), "b": avi(one(), [bytes(3), FRAME]),
             "d": avi(one(), [FRAME] * 11 + [b"\1", FRAME, bytes(3)]), "e": avi(one(), []),
             "f": avi(one(), [FRAME, bytes(3), FRAME])[:-1], '"\t\u00e9\\': avi(one(), [FRAME])}
    footer, not_key = fault(35, "Footer", frame=11, slice=0), fault(30, "NotKey", frame=0, slice=0)
    of_a, of_b = verdict("a", 1, 0), verdict("b", "null", "null", not_key)
    unread = verdict("no", "null", "null", fault(56, "Read"))
    first = fault(30, "NotKey", frame=1, slice=0)
    yield Case("check --json", given, [
        Step(["check", "--json", "a"], of_a),
        Step(["check", "--quiet", "a", "--json", "--place"], of_a),
        Step(["check", "--json", '"\t\u00e9\\'], verdict('\\"\\t\u00e9\\\\', 1, 0)),
        Step(["check", "--json", "d"], verdict("d", "null", "null", footer), "35 Footer"),
        Step(["check", "--json", "--all", "d"], verdict("d", 14, 2, footer), "35 Footer"),
        Step(["check", "--json", "-"],
             verdict("-", "null", "null", fault(52, "Truncated", byte=0)), "52 Truncated"),
        Step(["check", "--json", "no"], unread, "56 Read"),
        Step(["check", "--json", "e"], verdict("e", "null", "null", fault(70, "NoFrames")),
             "70 NoFrames"),
        Step(["check", "--json", "--all", "f"], verdict("f", 2, 2, first), "30 NotKey"),
        Step(["check", "--json", "b", "no", "a"], f"{of_b}{unread}{of_a}", status=1,
             errors="ffv1: b: 30 NotKey\nffv1: no: 56 Read\n")], given)


def compared():
    """Files that are compared with a list."""
    listed = list(GOOD.values())[0]
    yield Case("check --json --against", {"in": TEXT, "list": listed.encode(), "bad": b"x\n"}, [
        Step(["pack", "in", "out"], ANY),
        Step(["check", "--json", "--against", "list", "out"], verdict("out", 2, 0)),
        Step(["check", "--json", "--against", "bad", "out"],
             verdict("bad", "null", "null", fault(66, "List", line=1)), "66 List"),
        Step(["check", "--json", "--quiet", "--against", "list", "no"],
             verdict("no", "null", "null", fault(56, "Read")), "56 Read")])


CASES = [checked, compared]
