#!/usr/bin/env python3
# The time of one parse by Lark's Earley parser: lark_earley.py GRAMMAR RECORD SECONDS
# Prints the milliseconds of making the parser and those of a parse that yields
# one tree (the median of as many as the seconds allow, from 1 to 11). The
# processor's time.
import sys
import time

from lark import Lark

grammar, record = (open(path).read() for path in sys.argv[1:3])
seconds = float(sys.argv[3])
start = time.process_time()
parser = Lark(grammar, start="start", parser="earley", ambiguity="resolve")
making = time.process_time() - start
times = []
while True:
    start = time.process_time()
    parser.parse(record)
    times.append(time.process_time() - start)
    if len(times) == 11 or sum(times) + times[-1] >= seconds:
        break
times.sort()
print(f"{making * 1000:.6f} {times[len(times) // 2] * 1000:.6f}")
