"""Every call of the library, from Python: reads a recording, whole and an interval at a time, writes a message, plays the
arbitration of three stations and prints the desk's text. examples/expected.txt is what it prints.

    python3 examples/python/example.py target/library/libj1850.so examples/truck.txt
"""
import os
import sys

sys.path.insert(0, os.path.join(os.path.dirname(os.path.abspath(__file__)), "..", "..", "python"))  # unless it is installed
import j1850  # noqa: E402


def spaced(data):
    return "".join(f" {byte:02X}" for byte in data)


def words_of(words):
    return "".join(f" {word}" for word in words)


def frame(answer, main, response):
    """The bytes of a frame."""
    kind = {j1850.WITHOUT: "", j1850.PLAIN: ", plain response", j1850.CHECKED: ", checked response"}[answer.kind]
    return f"frame{spaced(main)}{kind}{spaced(response)}"


def told(answer, main, response):
    """One answer of reading."""
    if answer.number == j1850.FRAME:
        return f"  at {answer.opening}: {frame(answer, main, response)}"
    if answer.number == j1850.QUIET:
        return f"  from {answer.next}: quiet"
    if answer.number == j1850.UNFINISHED:
        return f"  at {answer.opening}: unfinished"
    return f"  at {answer.next}: fault {answer.number}, {j1850.words(answer.number)}"


def small_calls(line):
    message = bytes.fromhex("686AF1010C")
    print(f"The check byte of{spaced(message)} is {line.check_byte(message):02X}")
    print("An active interval of 200 microseconds is", "a SOF" if line.symbol(True, 200) == j1850.SOF else "no SOF")
    good = line.good_clock(j1850.Clock(80, 128, 200))
    print("A short bit of 80 microseconds is", "good" if good else "outside the sending windows")
    intervals = line.intervals(j1850.Gate(0, 6.25, 1.5), [0, 7, 3, 3, 1])
    print(f"The samples 0 7 3 3 1 at the usual gate are the intervals{words_of(intervals)}")


def reading(line, widths):
    print(f"The recording has {len(widths)} intervals")
    for answer, main, response in line.frames(widths):
        print(told(answer, main, response))


def asked(line, live):
    answer = line.ask(live)
    if answer.number == j1850.QUIET:
        return f"  asked: quiet from {answer.next}"
    return f"  asked: unfinished since {answer.opening}"


def hearing(line, widths):
    """The same recording as a truck sends it: each interval is heard when it comes, and most decide nothing."""
    live = line.live_start()
    print(f"The same intervals, heard one by one:\n{asked(line, live)}")
    for width in widths:
        answer, main, response = line.hear(live, width)
        if answer.number == j1850.FRAME:
            print(f"  {answer.next} closes what opened at {answer.opening}: {frame(answer, main, response)}")
        elif answer.number != j1850.UNDECIDED:
            print(f"  {answer.next} is at fault: {answer.number}, {j1850.words(answer.number)}")
    print(asked(line, live))


def writing(line):
    words = line.write(j1850.nominal(), bytes.fromhex("08FF10"), j1850.PLAIN, bytes.fromhex("28"))
    print(f"A message with a plain response takes {len(words)} words:\n {words_of(words)}")
    print(told(*line.read(words, 0)))


def loss(line, message, bit):
    """Why a station lost at a bit, counted from 1 after the SOF: its own bit there, or that it has none."""
    sent = message + bytes([line.check_byte(message)])
    if bit > 8 * len(sent):
        return "it had sent its check byte, and the line went on"
    own = sent[(bit - 1) // 8] >> (7 - (bit - 1) % 8) & 1
    return f"it sent a {own} where the line had a {1 - own}"


def one_round(line, number, senders, row):
    try:
        answer, words = line.round(row)
    except j1850.Refused as refused:
        print(f"Round {number}: {refused}")
        return
    print(f"Round {number}: {answer.words} words, {answer.line_time} microseconds")
    for (name, message), verdict in zip(senders, answer.verdicts):
        if verdict.fared == j1850.THROUGH:
            print(f"  {name} got the line")
        if verdict.fared == j1850.LOST:
            print(f"  {name} lost at bit {verdict.bit}: {loss(line, message, verdict.bit)}")
    print(told(*line.read(words, 0)))


def arbitration(line):
    # the dash's message begins with all the bits of the brakes' frame, and goes on
    senders = [("engine", bytes.fromhex("486B10")), ("brakes", bytes.fromhex("08FF")), ("dash", bytes.fromhex("08FF2010"))]
    row = j1850.row_of([j1850.nominal()] * 3)
    for place, (_, message) in enumerate(senders):
        line.load(row, place, message)
    line.set_clock(row, 1, j1850.Clock(49, 112, 182))
    one_round(line, 1, senders, row)
    one_round(line, 2, senders, row)
    line.withdraw(row, 0)
    print("The engine's message is withdrawn")
    one_round(line, 3, senders, row)


def desk(line, data):
    answer, text = line.desk(data)
    print(f"The desk's text, number {answer.number}:\n{text.decode()}", end="")
    answer, text = line.desk(data[:-1])
    print(f"Without its last newline, number {answer.number} at line {answer.line}:\n{text.decode()}", end="")


def main():
    line = j1850.Library(sys.argv[1])
    data = open(sys.argv[2], "rb").read()
    widths = j1850.recording(int(row[3:]) for row in data.decode().splitlines() if row.startswith("iv\t"))
    small_calls(line)
    reading(line, widths)
    hearing(line, widths)
    writing(line)
    arbitration(line)
    desk(line, data)


main()
