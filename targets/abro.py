"""ABRO by ctypes: `python3 abro.py LIBRARY TEXT` prints the instants in which O is emitted.

LIBRARY is a shared object made of the static library:
gcc -shared -o libestserve_react.so -Wl,--whole-archive libestserve_react.a -Wl,--no-whole-archive
"""
import ctypes
import pathlib
import sys

REACT, GIVEN, END = 0, 1, 6  # questions, as in estserve_react.h


class Fault(ctypes.Structure):
    _fields_ = [("code", ctypes.c_uint64), ("line", ctypes.c_uint64), ("column", ctypes.c_uint64)]


def main():
    if len(sys.argv) != 3:
        sys.exit(__doc__)
    library = ctypes.CDLL(sys.argv[1])
    library.est_ask.argtypes = [ctypes.c_void_p, ctypes.c_uint64, ctypes.c_uint64]
    library.est_ask.restype = library.est_load_module.restype = ctypes.c_uint64
    libc = ctypes.CDLL(None)
    libc.free.argtypes = [ctypes.c_void_p]
    text = pathlib.Path(sys.argv[2]).read_bytes()
    machine, fault = ctypes.c_void_p(), Fault()
    code = library.est_load_module(
        b"ABRO", ctypes.c_size_t(4), text, ctypes.c_size_t(len(text)), ctypes.byref(machine), ctypes.byref(fault)
    )
    if code:
        sys.exit(f"fault {code} at line {fault.line}, column {fault.column}")
    a, b, r, o = 1, 2, 4, 8
    for instant, inputs in enumerate([0, a, b, a | b, r, a | b, a | b | r], start=1):
        if library.est_ask(machine, REACT, inputs) == 0 and library.est_ask(machine, GIVEN, 0) & o:
            print(instant)
    library.est_ask(machine, END, 0)
    libc.free(machine)


main()
