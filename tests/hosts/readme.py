#!/usr/bin/env python3
"""The program in a language that a page shows: readme.py PAGE LANGUAGE > PROGRAM. There has to be one such block, fenced, and no more."""
import re
import sys

with open(sys.argv[1], encoding="utf-8") as text:
    blocks = re.findall(rf"^```{sys.argv[2]}\n(.*?)^```$", text.read(), re.S | re.M)
if len(blocks) != 1:
    sys.exit(f"{sys.argv[1]} has {len(blocks)} blocks of {sys.argv[2]}, not 1")
sys.stdout.write(blocks[0])
