#!/usr/bin/env python3
"""Drives shelf through a pipe, as docs/EMBEDDING.md tells: a scripted module opens a session.

SHELF in the environment names another program than crates/shelf/out/shelf.
"""

import os
import subprocess
import sys
from pathlib import Path

SHELF = os.environ.get("SHELF", Path(__file__).resolve().parents[1] / "crates/shelf/out/shelf")
SIZE = 16  # the agreed size
CONNECTION = 1
D_T_C_REPLY = 0x85


class Shelf:
    """The program: a call a line in, an answer a line out."""

    def __init__(self):
        self.process = subprocess.Popen([SHELF], stdin=subprocess.PIPE, stdout=subprocess.PIPE,
                                        text=True)

    def call(self, *words):
        """What a call comes to, in words: `ok`, `more`, `sent HH ..` or `refused NUMBER ..`."""
        line = " ".join(map(str, words))
        print(line, file=self.process.stdin, flush=True)
        answer = self.process.stdout.readline().rstrip("\n")
        print(f"> {line}\n{answer}")
        said = answer.split(" ")
        if not said[0].isdigit():
            raise RuntimeError(f"no answer to a call: {answer!r}")
        return said[next(at for at, word in enumerate(said)
                         if word in ("ok", "more", "sent", "refused")):]

    def report(self):
        """Ends the input: the sessions that are open, and the turns that were out."""
        rest, _ = self.process.communicate()
        return rest.splitlines()


class Module:
    """Stands for the link to a module, and answers each command with the next unit of a script."""

    UNITS = (
        "83 01 01 80 02 01 00",  # the connection is there
        "A0 07 01 91 04 00 01 00 41 80 02 01 00",  # asks for a session of Resource Manager
        "80 02 01 00",  # heard; no data to send
        "A0 0D 01 90 02 00 01 9F 80 11 04 00 02 00 41 80 02 01 00",  # its profile
        "80 02 01 00",
    )

    def __init__(self):
        self.units = list(map(bytes.fromhex, self.UNITS))

    def write(self, lpdus):
        """Where a real link writes one LPDU after another."""

    def read(self):
        """The LPDUs of the answer, none after 300 ms of silence."""
        unit, step = self.units.pop(0), SIZE - 2
        for start in range(0, len(unit), step):
            mark = 0x80 if start + step < len(unit) else 0x00
            yield bytes([CONNECTION, mark]) + unit[start:start + step]


def exchange(shelf, module, slot):
    """One command to the module, and its answer; False where nothing is to be said."""
    outcome, *rest = shelf.call("next", slot, CONNECTION)
    if outcome == "refused":
        return False
    sent = bytes.fromhex("".join(rest))
    module.write([sent[at:at + SIZE] for at in range(0, len(sent), SIZE)])
    if sent[2] == D_T_C_REPLY:  # hands out no turn
        return True
    for lpdu in module.read():
        outcome, *_ = shelf.call("feed", slot, CONNECTION, lpdu.hex(" ").upper())
        if outcome == "ok":
            return True
        if outcome == "refused":
            break
    shelf.call("expire", slot, CONNECTION)
    return True


def main():
    shelf, module = Shelf(), Module()
    shelf.call("plug", 0, SIZE)
    while module.units:
        exchange(shelf, module, 0)
    for line in shelf.report():
        print(line)
    sys.exit(shelf.process.returncode)


if __name__ == "__main__":
    main()
