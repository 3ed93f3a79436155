#!/usr/bin/env python3
"""Times flexc on a source of 100 elements under about 1,000,000 bytes of clicks, and half of them.

    bench/clicks.py [PROGRAM]

PROGRAM is crates/flexc/out/flexc where it isn't said: build it first, by `rt run` in crates/flexc.
Each line tells the clicks, the seconds and the peak memory of one run, and the steps that the
machine made in it. Twice the clicks should take about twice the seconds, and the memory should grow
no faster. This is no part of the gate.
"""

import os
import subprocess
import sys
import tempfile
import time

PROGRAM = os.path.join(os.path.dirname(__file__), "..", "crates", "flexc", "out", "flexc")
OPENING = (
    '<s:Application xmlns:fx="http://ns.adobe.com/mxml/2009"'
    ' xmlns:s="library://ns.adobe.com/flex/spark">'
)
CLOSING = "</s:Application>"
ELEMENTS = 100
SCRIPT_BYTES = 1_000_000

# The steps of one click: its line, the event, three arrivals (at the document, at the element, at
# the document again), and the end of the dispatch; a handler adds its call and four instructions.
STEPS_OF_A_CLICK = 6
STEPS_OF_A_HANDLER = 5


def name(number):
    """An id of ten letters: the cells hold out for the events of lines of this length."""
    return "element" + "".join(chr(ord("a") + int(digit)) for digit in f"{number:03}")


def element(number):
    """Each second element is a Button with a handler, and the others are Labels."""
    if number % 2 == 0:
        return f"<s:Button id=\"{name(number)}\" click=\"trace('{name(number)}')\"/>"
    return f'<s:Label id="{name(number)}" text="{number}"/>'


def clicks(length):
    """The lines of a script of at most this length, which clicks the elements in turn."""
    line_length = len(f"click {name(0)}\n")
    return [f"click {name(number % ELEMENTS)}\n" for number in range(length // line_length)]


def run(program, folder, lines):
    """The seconds and the peak memory, in bytes, of one run over these lines."""
    script = os.path.join(folder, "clicks.txt")
    with open(script, "w", encoding="ascii") as file:
        file.writelines(lines)
    words = [program, "run", "--script", "clicks.txt", "--out", "form.swf", "Main.mxml"]
    before = time.perf_counter()
    with open(os.path.join(folder, "trace.txt"), "wb") as trace:
        process = subprocess.Popen(words, cwd=folder, stdout=trace)
        _, status, usage = os.wait4(process.pid, 0)
    seconds = time.perf_counter() - before
    if os.waitstatus_to_exitcode(status) != 0:
        sys.exit(f"{program} ended with status {os.waitstatus_to_exitcode(status)}")
    return seconds, usage.ru_maxrss * 1024


def main():
    program = os.path.abspath(sys.argv[1] if len(sys.argv) > 1 else PROGRAM)
    with tempfile.TemporaryDirectory() as folder:
        with open(os.path.join(folder, "Main.mxml"), "w", encoding="ascii") as file:
            file.write(OPENING + "".join(map(element, range(ELEMENTS))) + CLOSING)
        for length in (0, SCRIPT_BYTES // 2, SCRIPT_BYTES):
            lines = clicks(length)
            seconds, memory = run(program, folder, lines)
            steps = len(lines) * STEPS_OF_A_CLICK + (len(lines) + 1) // 2 * STEPS_OF_A_HANDLER
            print(
                f"{len(lines):6} clicks in {length:7} bytes: {seconds:6.2f} s,"
                f" {memory / 1_000_000:6.1f} MB, {steps:7} steps,"
                f" {steps / seconds:9.0f} steps a second"
            )


if __name__ == "__main__":
    main()
