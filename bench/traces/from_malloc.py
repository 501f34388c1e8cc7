"""Makes a script of what malloc.c recorded: from_malloc.py < CALLS > SCRIPT. A request for no bytes is left out."""
import sys
from script import Script

script = Script()
for line in sys.stdin:
    what, at, *size = line.split()
    script.resize(at, int(size[0]) if size else 0)
script.write()
