#!/usr/bin/env python3
"""Ten thousand compressed titles, and the type 1 decode table as C, for bench/titles.c.

Writes into the folder that is named: titles.bin (a length byte and the segment, each) and table.h.
"""
import os
import random
import sys

HERE = os.path.dirname(os.path.abspath(__file__))
sys.path.insert(0, os.path.join(HERE, "..", "tests"))
from annex_c_coder import encode, pack

WORDS = ("The News at Ten Morning with Tea and Garden School Nature of World Weather Evening Sports "
         "Cookery Children's Hour Story Music Live from Our Town History Today Science Club").split()
folder = sys.argv[1]
chance = random.Random(65)
with open(os.path.join(folder, "titles.bin"), "wb") as out:
    for _ in range(10000):
        title = " ".join(chance.choice(WORDS) for _ in range(chance.randrange(1, 6)))
        segment = pack(encode(1, title.encode()))
        out.write(bytes([len(segment)]) + segment)
with open(os.path.join(HERE, "..", "data", "annex-c-1-decode.txt")) as lines:
    numbers = [n for line in lines for n in line.split(":")[1].split()]
with open(os.path.join(folder, "table.h"), "w") as out:
    out.write("static const unsigned char table[] = {%s};\n" % ",".join(numbers))
