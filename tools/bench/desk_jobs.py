"""The desk beside a plain Rust filter that does the same (desk_filter.rs), end to end: each run is a process that reads an input of
16,384 interval lines and writes its text."""
import os
import random
import statistics
import subprocess
import time

import cases

ROUNDS = 301


class Differ(Exception):
    pass


def busy(rng):
    """Good frames, one in ten of them damaged."""
    widths = [300]
    while len(widths) < cases.MOST_LINES:
        frame = cases.frame(rng)
        if rng.random() < 0.1:
            frame[rng.randrange(len(frame))] = rng.choice(cases.EDGES)
        widths += frame + [300]
    return widths[: cases.MOST_LINES]


def inputs():
    labels = (b"haulier-7", b"truck_12")
    yield "good frames, one in ten damaged", cases.text(labels, busy(random.Random(7)))
    yield "a fault at every second interval", cases.text(labels, [300, 64] * (cases.MOST_LINES // 2))
    yield "the longest: labels of 16, every width 4294967295", cases.text((b"c" * 16, b"v" * 16), [4294967295] * cases.MOST_LINES)
    yield "refused at its last line", cases.text(labels, [64] * (cases.MOST_LINES - 1)) + b"iv\t01\n"


def text_of(command, path):
    with open(path, "rb") as stdin:
        return subprocess.run(command, stdin=stdin, stdout=subprocess.PIPE, stderr=subprocess.DEVNULL, check=True).stdout


def both_texts(desk, plain, path):
    """The text that both programs write for an input."""
    text = text_of(desk, path)
    if text != text_of(plain, path):
        raise Differ(f"the desk and the plain filter write different texts for {path}")
    return text


def once(program, path):
    """The seconds of one run, from before it is started until it has ended."""
    opened = [(0, path, os.O_RDONLY), (1, os.devnull, os.O_WRONLY), (2, os.devnull, os.O_WRONLY)]
    actions = [(os.POSIX_SPAWN_OPEN, fd, name, how, 0) for fd, name, how in opened]
    began = time.perf_counter()
    pid = os.posix_spawn(program, [program], os.environ, file_actions=actions)
    status = os.waitpid(pid, 0)[1]
    took = time.perf_counter() - began
    if status:
        raise Differ(f"{program} ends with {status}")
    return took


def times(desk, plain, path):
    """The median of each program's runs, in milliseconds; whoever begins changes from round to round."""
    took = {desk: [], plain: []}
    for turn in range(ROUNDS):
        for program in (desk, plain) if turn % 2 else (plain, desk):
            took[program].append(once(program, path))
    return [statistics.median(took[program]) * 1e3 for program in (desk, plain)]
