#!/usr/bin/env python3
"""Times flexc on documents of about 1,000,000 bytes, and half of them, that are read and not built.

    bench/documents.py [PROGRAM]

PROGRAM is crates/flexc/out/flexc where it isn't said: build it first, by `rt run` in crates/flexc.
Each line tells the bytes and the best seconds of five runs, and those of `xmllint --noout` on the
same document where it is installed. Twice the bytes should take about twice the seconds, and flexc
at most three times those of xmllint. This is no part of the gate.
"""

import os
import shutil
import subprocess
import sys
import tempfile
import time

PROGRAM = os.path.join(os.path.dirname(__file__), "..", "crates", "flexc", "out", "flexc")

OPENING = (
    '<?xml version="1.0"?>\n<s:Application xmlns:fx="http://ns.adobe.com/mxml/2009"'
    ' xmlns:s="library://ns.adobe.com/flex/spark">\n'
)
ROW = (
    '    <s:Group x="1" y="2"><s:Label id="label" text="Some text &amp; more of it"/>'
    "<!-- a comment --><s:Button label=\"b\" click=\"trace('x')\"/> text </s:Group>\n"
)
CLOSING = "</s:Application>\n"


def document(size):
    rows = (size - len(OPENING) - len(CLOSING)) // len(ROW)
    return OPENING + ROW * rows + CLOSING


def seconds(words, folder):
    best = None
    for _ in range(5):
        start = time.perf_counter()
        subprocess.run(words, cwd=folder, capture_output=True)
        taken = time.perf_counter() - start
        best = taken if best is None else min(best, taken)
    return best


def main():
    program = os.path.abspath(sys.argv[1] if len(sys.argv) > 1 else PROGRAM)
    with tempfile.TemporaryDirectory() as folder:
        open(os.path.join(folder, "empty.txt"), "w").close()
        for size in (500_000, 1_000_000):
            text = document(size)
            with open(os.path.join(folder, "Main.mxml"), "w") as file:
                file.write(text)
            words = [program, "run", "--script", "empty.txt", "--out", "out.swf", "Main.mxml"]
            line = f"{len(text):8} bytes: flexc {seconds(words, folder):.4f} s"
            if shutil.which("xmllint"):
                line += f", xmllint {seconds(['xmllint', '--noout', 'Main.mxml'], folder):.4f} s"
            print(line)


main()
