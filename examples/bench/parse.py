"""Reads each line of a trace with orjson and writes it: what bench holds the program against."""
import sys

import orjson

with open(sys.argv[1], 'rb') as trace:
    for line in trace:
        sys.stdout.buffer.write(orjson.dumps(orjson.loads(line)))
