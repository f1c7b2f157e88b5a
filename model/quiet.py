# SPDX-License-Identifier: MIT OR Apache-2.0
"""One line of a file that is checked, in place of those of its frames: of text, or an object of
JSON."""
import json

from command_line import Order
from ffv1 import FAULTS, Fault


def place_of(line):
    """Where a line says that a fault is, by the names of an object's members."""
    words = line.split()
    if words[:1] == ["byte"]:
        return {"byte": int(words[1].rstrip(":"))}
    if words[:2] != ["fault", "frame"]:
        return {}
    if words[3] == "slice":
        return {"frame": int(words[2]), "slice": int(words[4])}
    return {"byte": int(words[4])}


def said(place):
    """The same in words."""
    if "byte" in place:
        return f" at byte {place['byte']}"
    if "line" in place:
        return f" in line {place['line']}"
    if "slice" in place:
        return f" in frame {place['frame']}, slice {place['slice']}"
    return f" in frame {place['frame']}" if place else ""


class Verdict:
    """Own: what is said of a file, by the lines of its check, with places, and by the fault of that.
    How many frames and faults there are is known if the check came to its end. Where every frame is
    asked for, and it did, the place is that of the first fault; else it is that of the last line,
    which there is the file's alone."""

    def __init__(self, lines, fault, every):
        last = lines[-1] if lines else ""
        self.fault, self.frames, self.faults, self.place = fault, None, None, {}
        self.of_file = any(line.startswith("byte") for line in lines)
        if not fault:
            self.frames, self.faults = int(last.split()[1]), 0
        elif every and last.startswith("frames"):
            self.frames, self.faults = int(last.split()[1]), int(last.split()[3])
            first = next(line for line in lines if line.startswith(("fault", "byte")))
            self.place = place_of(first)
        elif not (last.startswith("byte") or (every and " slice " in last)):
            self.place = place_of(last)
        self.place = {**self.place, **getattr(fault, "where", {})}

    def text(self, name):
        """It in words."""
        if not self.fault:
            return f"{name}: sound, {self.frames} frames\n"
        first = f"{self.fault}{said(self.place)}"
        if self.frames is None:
            return f"{name}: {first}\n"
        counts = f"{self.faults} of {self.frames} frames refused"
        if self.of_file:
            counts = f"{self.faults} faults in {self.frames} frames"
        return f"{name}: {counts}, the first {first}\n"

    def object(self, path):
        """It as an object of JSON on a line."""
        fault = told(self.fault, self.place) if self.fault else None
        members = {"path": path, "sound": not self.fault, "frames": self.frames,
                   "faults": self.faults, "fault": fault}
        return json.dumps(members, separators=(",", ":"), ensure_ascii=False) + "\n"


def told(fault, place):
    """A fault as an object of JSON, with what is known of its place."""
    return {"number": fault.number, "name": FAULTS[fault.number],
            **{name: place.get(name) for name in ["frame", "slice", "byte", "line"]}}


def quietly(perform):
    """The same, but that a file which is to be checked with `--quiet` or `--json` gets one line,
    whatever becomes of it."""
    def performed(order, path, output, standard_input):
        if order.command != "check" or not (order.choice["quiet"] or order.choice["json"]):
            return perform(order, path, output, standard_input)
        lines, met = [], None
        try:
            answer = perform(Order(order.command, [path], {**order.choice, "place": True}),
                             path, lines.append, standard_input)
        except Fault as fault:
            met = fault
        verdict = Verdict(lines, met, order.choice["all"])
        path = getattr(met, "path", None) or path
        output(verdict.object(path) if order.choice["json"]
               else verdict.text("standard input" if path == "-" else path))
        if met:
            raise met
        return answer
    return performed
