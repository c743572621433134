"""Runs the trace on standard input and prints its six counts. `python3 c1.py libvaznirokh.so`"""

import ctypes
import sys

library = ctypes.CDLL(sys.argv[1])
size = ctypes.c_size_t
trace = sys.stdin.buffer.read()
log = (ctypes.c_uint32 * (4 * 4096))()
counts = (ctypes.c_uint32 * 6)()
refusal = library.vaz_run(trace, size(len(trace)), log, size(len(log)), counts, size(len(counts)))
if refusal != 0:
    print("refused", refusal)
    sys.exit(1)
print(*counts)
