"""Sees what python/j1850/library.py says of lent memory: an array is lent as it is, and reading a whole recording takes a time that
grows with its length alone. Needs a Python for x86-64.

    python3 tools/python_check.py target/library/libj1850.so
"""
import array
import ctypes
import os
import sys
import time

sys.path.insert(0, os.path.join(os.path.dirname(os.path.abspath(__file__)), "..", "python"))
import j1850  # noqa: E402

FAULTS = [300, 64]  # an opening, and a bit where the start of frame should stand


def expect(right, what):
    if not right:
        sys.exit(f"python_check: not as it should be: {what}")


def lending():
    """Which memory is lent as it is, and which is copied."""
    widths = j1850.recording(FAULTS)
    memory, count = j1850.lent(ctypes.c_uint32, widths)
    expect(count == 2 and ctypes.addressof(memory) == widths.buffer_info()[0], "an array is lent as it is")
    expect(j1850.lent(ctypes.c_uint32, memory)[0] is memory, "a ctypes array is lent as it is")
    for values in (FAULTS, tuple(FAULTS), memoryview(widths).toreadonly(), array.array("Q", FAULTS)):
        copied, count = j1850.lent(ctypes.c_uint32, values)
        expect(list(copied) == FAULTS and ctypes.addressof(copied) != widths.buffer_info()[0], f"a copy of {type(values)}")
    expect(list(j1850.lent(ctypes.c_uint8, b"\x01\xff")[0]) == [1, 255], "bytes")
    expect(j1850.lent(ctypes.c_uint8, b"")[1] == 0 and j1850.lent(ctypes.c_uint32, [])[1] == 0, "nothing")
    for wide in (-1, 2**32):
        try:
            j1850.recording([wide])
            expect(False, f"{wide} is no width")
        except OverflowError:
            pass


def seconds(line, count):
    """The least time of three that all answers of so many intervals take, each second one at fault."""
    widths = j1850.recording(FAULTS * (count // 2))
    took = []
    for _ in range(3):
        began = time.perf_counter()
        answers = sum(1 for _ in line.frames(widths))
        took.append(time.perf_counter() - began)
        expect(answers == count // 2 + 1, f"{answers} answers of {count} intervals")
    return min(took)


def main():
    line = j1850.Library(sys.argv[1])
    lending()
    listed = [(a.number, a.next, main, response) for a, main, response in line.frames(FAULTS * 8)]
    lent = [(a.number, a.next, main, response) for a, main, response in line.frames(j1850.recording(FAULTS * 8))]
    expect(listed == lent and listed[-1][0] == j1850.QUIET, "a list and an array give the same answers")
    try:
        line.read(FAULTS, 3)
        expect(False, "a position past the recording is refused")
    except j1850.Refused as refused:
        expect(refused.number == j1850.REFUSED_POSITION and str(refused) == "refused with 31: the position is past the recording", "a refusal tells its words")
    few, many = seconds(line, 4096), seconds(line, 32768)
    expect(many < 20 * few, f"eight times the intervals take {many / few:.1f} times as long")
    print(f"python_check: an array is lent as it is; 32,768 intervals full of faults take {many:.2f} s, {many / few:.1f} times what 4,096 take")


main()
