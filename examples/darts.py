"""The same questions as darts.c, asked from Python. The library is the first argument."""
import ctypes
import sys

plate = ctypes.CDLL(sys.argv[1])
CALLS = [plate.plate_next, plate.plate_previous, plate.plate_opposite]
for call in CALLS:
    call.argtypes = [ctypes.c_char_p, ctypes.c_size_t, ctypes.c_uint32]
    call.restype = ctypes.c_int32

STREET = bytes([1, 2, 2, 0, 1, 0, 0, 0, 4]) + bytes.fromhex("020c10018083010600")
FAILING = bytes([1, 1, 1, 0, 1, 0, 0, 0, 1]) + bytes.fromhex("2000")
NOTHING = bytes([2, 1, 1, 0, 0])


def ask(name, record, dart):
    answers = " ".join(str(call(record, len(record), dart)) for call in CALLS)
    print(f"{name} {dart}: {answers}")


for code in [128, 448, 768, 576, 192, 640, 832, 256, 0, 129, 1152]:
    ask("street", STREET, code)
ask("failing", FAILING, 0)
ask("failing", FAILING, 64)
ask("nothing", NOTHING, 0)
