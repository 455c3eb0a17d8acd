"""The library's calls for Python, by ctypes. include/j1850.h says what each call takes and answers.

    line = j1850.Library("target/library/libj1850.so")     # or j1850.found(), which looks for it
    line.check_byte(b"\\xff")

Bytes, lists and arrays go in, and bytes, lists and the answers' structs come out. A list is copied at each call; an
`array.array`, or any other memory that holds such numbers, is lent as it is. `recording` makes such an array of a recording's
widths, and `frames` gives all that it holds. A refusal is raised as `Refused`, with its number and its words.
"""
import array
import ctypes
from ctypes import POINTER, Structure, byref, c_bool, c_float, c_size_t, c_uint8, c_uint32, c_uint64

NOISE, BIT_0, BIT_1, EOD, SOF, EOF, IFS, BREAK, STUCK = range(9)
SYMBOLS = ("noise", "bit 0", "bit 1", "EOD", "SOF", "EOF", "IFS", "break", "stuck")
WITHOUT, PLAIN, CHECKED = range(3)
IDLE, THROUGH, LOST = range(3)
FRAME_BYTES, FRAME_WORDS, DESK_WORDS, DESK_TEXT = 12, 101, 16384, 442463

# The numbers that an answer begins with, by name; docs/NUMBERS.md tells when each comes and what to do.
DONE = 0
FRAME = DONE
QUIET = 1
UNFINISHED = 2
FAULT_NOISE = 11
FAULT_NO_SOF = 12
FAULT_BREAK = 13
FAULT_STUCK = 14
FAULT_LATE_SOF = 15
FAULT_SPLIT_BYTE = 16
FAULT_FEW_BYTES = 17
FAULT_WRONG_CHECK = 18
FAULT_EOD_AFTER_RESPONSE = 19
FAULT_THIRTEENTH_BYTE = 20
REFUSED_POSITION = 31
REFUSED_LENT = 32
REFUSED_SAMPLES = 33
REFUSED_GATE = 34
REFUSED_UNUSABLE = 35
REFUSED_CLOCK = 36
REFUSED_MESSAGE = 37
REFUSED_ROW_SIZE = 38
REFUSED_ROW_UNSOUND = 39
REFUSED_PLACE = 40
REFUSED_HOLDS = 41
REFUSED_NOTHING = 42
REFUSED_PAST_PLACES = 51
REFUSED_DESK_LENT = 61
BAD_INPUT = 62
UNDECIDED = 63
# Their words.
WORDS = {
    DONE: "a good frame, or done",
    QUIET: "no further frame begins",
    UNFINISHED: "a frame begins, and the recording ends first",
    FAULT_NOISE: "noise inside a frame",
    FAULT_NO_SOF: "a bit where the start of frame should stand",
    FAULT_BREAK: "a break",
    FAULT_STUCK: "the line is stuck active",
    FAULT_LATE_SOF: "a second start of frame inside a frame",
    FAULT_SPLIT_BYTE: "a part ends inside a byte",
    FAULT_FEW_BYTES: "a part has too few bytes",
    FAULT_WRONG_CHECK: "a check byte is wrong",
    FAULT_EOD_AFTER_RESPONSE: "a second end of data, after the response",
    FAULT_THIRTEENTH_BYTE: "a thirteenth byte begins",
    REFUSED_POSITION: "the position is past the recording",
    REFUSED_LENT: "too little is lent",
    REFUSED_SAMPLES: "too many samples",
    REFUSED_GATE: "the gate is not good",
    REFUSED_UNUSABLE: "a sample is unusable",
    REFUSED_CLOCK: "the clock is outside the sending windows",
    REFUSED_MESSAGE: "the message is empty or too long",
    REFUSED_ROW_SIZE: "the row has no station, or over 32",
    REFUSED_ROW_UNSOUND: "a station of the row is not sound",
    REFUSED_PLACE: "there is no such station",
    REFUSED_HOLDS: "the station already holds a message",
    REFUSED_NOTHING: "no message waits",
    REFUSED_PAST_PLACES: "all places are used up",
    REFUSED_DESK_LENT: "too little is lent to the desk",
    BAD_INPUT: "the desk's input is bad",
    UNDECIDED: "nothing is decided yet",
}
FAULTS = range(FAULT_NOISE, FAULT_THIRTEENTH_BYTE + 1)


def words(number):
    """The words of a number."""
    return WORDS.get(number, "no number of this library")


class Refused(Exception):
    def __init__(self, number):
        super().__init__(f"refused with {number}: {words(number)}")
        self.number = number


class Gate(Structure):
    _fields_ = [("offset", c_float), ("active", c_float), ("passive", c_float)]


class Clock(Structure):
    _fields_ = [("short_bit", c_uint32), ("long_bit", c_uint32), ("sof", c_uint32)]


class Station(Structure):
    """A station of a row: its clock and its stored message, the first `length` of its bytes."""

    _fields_ = [("clock", Clock), ("bytes", c_uint8 * 11), ("length", c_uint8)]


class Live(Structure):
    """A live reader, changed in place by each interval that it hears."""

    _fields_ = [("inner", c_uint64 * 8)]


class CheckAnswer(Structure):
    _fields_ = [("number", c_uint32), ("check", c_uint8)]


class ClassAnswer(Structure):
    _fields_ = [("number", c_uint32), ("symbol", c_uint32)]


class ClockAnswer(Structure):
    _fields_ = [("number", c_uint32), ("good", c_bool)]


class CountAnswer(Structure):
    _fields_ = [("number", c_uint32), ("count", c_size_t)]


class ReadAnswer(Structure):
    _fields_ = [("number", c_uint32), ("kind", c_uint32), ("next", c_size_t), ("opening", c_size_t), ("main", c_size_t), ("response", c_size_t)]


class HeardAnswer(Structure):
    _fields_ = [("number", c_uint32), ("kind", c_uint32), ("next", c_uint64), ("opening", c_uint64), ("main", c_size_t), ("response", c_size_t)]


class AskedAnswer(Structure):
    _fields_ = [("number", c_uint32), ("next", c_uint64), ("opening", c_uint64)]


class CallAnswer(Structure):
    _fields_ = [("number", c_uint32)]


class Verdict(Structure):
    _fields_ = [("fared", c_uint32), ("bit", c_size_t)]


class RoundAnswer(Structure):
    _fields_ = [("number", c_uint32), ("line_time", c_uint32), ("words", c_size_t), ("verdicts", Verdict * 32)]


class DeskAnswer(Structure):
    _fields_ = [("number", c_uint32), ("line", c_size_t), ("length", c_size_t)]


def slice_of(element):
    """A slice crosses as a pointer and then a length."""
    return [POINTER(element), c_size_t]


CALLS = {
    "check_byte": (CheckAnswer, slice_of(c_uint8)),
    "class": (ClassAnswer, [c_bool, c_uint32]),
    "good_clock": (ClockAnswer, [Clock]),
    "intervals": (CountAnswer, [Gate] + slice_of(c_float) + slice_of(c_uint32)),
    "write": (CountAnswer, [Clock] + slice_of(c_uint8) + [c_uint32] + slice_of(c_uint8) + slice_of(c_uint32)),
    "read": (ReadAnswer, slice_of(c_uint32) + [c_size_t] + slice_of(c_uint8)),
    "live_start": (Live, []),
    "hear": (HeardAnswer, [POINTER(Live), c_uint32] + slice_of(c_uint8)),
    "ask": (AskedAnswer, [POINTER(Live)]),
    "load": (CallAnswer, slice_of(Station) + [c_size_t] + slice_of(c_uint8)),
    "withdraw": (CallAnswer, slice_of(Station) + [c_size_t]),
    "set_clock": (CallAnswer, slice_of(Station) + [c_size_t, Clock]),
    "round": (RoundAnswer, slice_of(Station) + slice_of(c_uint32)),
    "desk": (DeskAnswer, slice_of(c_uint8) + slice_of(c_uint32) + slice_of(c_uint8)),
}


def nominal():
    return Clock(64, 128, 200)


def row_of(clocks):
    """A row of empty stations with these clocks; it is changed in place by the calls on it."""
    return (Station * len(clocks))(*(Station(clock=clock) for clock in clocks))


CODES = {c_uint8: "B", c_uint32: "I", c_float: "f"}


def recording(widths):
    """The widths of a recording as an array, which is lent to every call as it is. A width that is no u32 is an OverflowError."""
    return array.array("I", widths)


def lent(element, values):
    """Memory that is lent to be read, and its length: writable memory of such elements as it is, anything else copied once."""
    if isinstance(values, ctypes.Array) and values._type_ is element:
        return values, len(values)
    code = CODES[element]
    try:
        view = memoryview(values)
    except TypeError:
        view = memoryview(array.array(code, values))
    if view.format != code or view.ndim != 1 or not view.c_contiguous:
        view = memoryview(array.array(code, view.tolist()))
    memory = element * len(view)
    return (memory.from_buffer_copy if view.readonly else memory.from_buffer)(view), len(view)


def zeros(element, count):
    return (element * count)(), count


def parts(answer, data):
    """The main bytes and the response bytes that stand first in the lent bytes."""
    lent_bytes = bytes(data)
    return lent_bytes[: answer.main], lent_bytes[answer.main : answer.main + answer.response]


class Library:
    def __init__(self, path):
        library = ctypes.CDLL(path)
        for name, (answer, arguments) in CALLS.items():
            call = getattr(library, "j1850_" + name)
            call.restype, call.argtypes = answer, arguments
        self.library = library

    def call(self, name, *arguments, fine=(DONE,)):
        answer = getattr(self.library, "j1850_" + name)(*arguments)
        if answer.number not in fine:
            raise Refused(answer.number)
        return answer

    def check_byte(self, data):
        return self.call("check_byte", *lent(c_uint8, data)).check

    def symbol(self, active, width):
        return self.call("class", active, width).symbol

    def good_clock(self, clock):
        return self.call("good_clock", clock).good

    def intervals(self, gate, samples):
        """The intervals of a trace."""
        words, count = zeros(c_uint32, len(samples) + 1)
        answer = self.call("intervals", gate, *lent(c_float, samples), words, count)
        return words[: answer.count]

    def write(self, clock, main, kind=WITHOUT, response=b""):
        """The intervals of a message's frame."""
        words, count = zeros(c_uint32, FRAME_WORDS)
        answer = self.call("write", clock, *lent(c_uint8, main), kind, *lent(c_uint8, response), words, count)
        return words[: answer.count]

    def read(self, intervals, position):
        """The answer, the main bytes and the response bytes. To read a whole recording, take `frames`."""
        data, count = zeros(c_uint8, FRAME_BYTES)
        answer = self.call("read", *lent(c_uint32, intervals), position, data, count, fine=(FRAME, QUIET, UNFINISHED, *FAULTS))
        return answer, *parts(answer, data)

    def frames(self, intervals):
        """Every answer of a recording, with its bytes as `read` gives them, the last one quiet or unfinished. A list is copied once."""
        memory, _ = lent(c_uint32, intervals)
        position = 0
        while True:
            answer, main, response = self.read(memory, position)
            yield answer, main, response
            if answer.number in (QUIET, UNFINISHED):
                return
            position = answer.next

    def live_start(self):
        """A live reader that has heard nothing."""
        return self.library.j1850_live_start()

    def hear(self, live, width):
        """The answer to the next interval, whose number is UNDECIDED where it decides nothing, the main bytes and the response bytes."""
        data, count = zeros(c_uint8, FRAME_BYTES)
        answer = self.call("hear", byref(live), width, data, count, fine=(FRAME, UNDECIDED, *FAULTS))
        return answer, *parts(answer, data)

    def ask(self, live):
        """How reading what was heard so far ends: QUIET or UNFINISHED."""
        return self.call("ask", byref(live), fine=(QUIET, UNFINISHED))

    def load(self, row, place, message):
        self.call("load", row, len(row), place, *lent(c_uint8, message))

    def withdraw(self, row, place):
        self.call("withdraw", row, len(row), place)

    def set_clock(self, row, place, clock):
        self.call("set_clock", row, len(row), place, clock)

    def round(self, row):
        """The answer, and the intervals of the line."""
        words, count = zeros(c_uint32, FRAME_WORDS)
        answer = self.call("round", row, len(row), words, count)
        return answer, words[: answer.words]

    def desk(self, data):
        """The answer, whose number is DONE or BAD_INPUT, and the text."""
        words, text = zeros(c_uint32, DESK_WORDS), zeros(c_uint8, DESK_TEXT)
        answer = self.call("desk", *lent(c_uint8, data), *words, *text, fine=(DONE, BAD_INPUT))
        return answer, ctypes.string_at(text[0], answer.length)
