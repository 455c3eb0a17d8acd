"""Compares the proved desk with the second program, byte for byte, and what it says of a refused input with reasons.py.

  compare.py DESK SECOND CASES SEED

DESK is crates/desk/out/desk, SECOND the second program. Ends with status 1 at the first difference, and keeps that input in the file
that it names.
"""
import itertools
import os
import random
import subprocess
import sys
import tempfile
from concurrent.futures import ThreadPoolExecutor

import cases
import manners
import reasons

BATCH = 400


class Different(Exception):
    pass


def second_texts(second, inputs):
    """What the second program writes for each input; one run for all."""
    asked = b"".join(b"%d\n%s" % (len(data), data) for data in inputs)
    told = subprocess.run([second, "desks"], input=asked, stdout=subprocess.PIPE, check=True).stdout
    at = 0
    for _ in inputs:
        end = told.index(b"\n", at)
        length = int(told[at:end])
        yield told[end + 1 : end + 1 + length]
        at = end + 1 + length


def desk_text(desk, data, way):
    """What the desk writes and says; the input comes as a file argument, as the argument `-`, or with no argument."""
    with tempfile.NamedTemporaryFile() as file:
        file.write(data)
        file.flush()
        words = [[file.name], ["-"], []][way]
        with open(file.name if words != [file.name] else os.devnull, "rb") as stdin:
            ran = subprocess.run([desk] + words, stdin=stdin, capture_output=True)
    if ran.returncode:
        raise Different(f"the desk ends with {ran.returncode}, on {kept(data)}")
    return ran.stdout, ran.stderr


def kept(data):
    with tempfile.NamedTemporaryFile(prefix="desk-", suffix=".txt", delete=False) as file:
        file.write(data)
    return file.name


def compare(pool, desk, second, inputs):
    """Compares on each input, batch by batch, and answers how many there were."""
    count = 0
    inputs = iter(inputs)
    while batch := list(itertools.islice(inputs, BATCH)):
        ways = [(count + place) % 3 for place in range(len(batch))]
        ours = pool.map(desk_text, [desk] * len(batch), batch, ways)
        for data, (mine, said), theirs in zip(batch, ours, second_texts(second, batch)):
            if mine != theirs:
                raise Different(f"they differ on {kept(data)}\n desk:   {mine[:300]!r}\n second: {theirs[:300]!r}")
            wanted = reasons.said(data, theirs)
            if said != wanted:
                raise Different(f"the reasons differ on {kept(data)}\n desk:   {said[:300]!r}\n wanted: {wanted!r}")
        count += len(batch)
    return count


def main():
    desk, second = sys.argv[1:3]
    many, seed = int(sys.argv[3]), int(sys.argv[4])
    if desk_text(desk, cases.EXAMPLE, 0) != (cases.EXAMPLE_TEXT, b""):
        raise Different("the desk's text for document 01's example is another")
    with ThreadPoolExecutor(os.cpu_count()) as pool:
        edges = compare(pool, desk, second, itertools.chain(cases.small(), cases.large()))
        seeded = compare(pool, desk, second, cases.seeded(random.Random(seed), many))
    if edges < 800 or seeded < many:
        raise Different(f"only {edges} inputs at the edges and {seeded} by the seed were compared")
    shown = manners.see(desk, lambda data: next(second_texts(second, [data])), Different)
    print(f"desk-compare: seed {seed}: {edges} inputs at the edges and {seeded} by the seed, the same bytes on each; {shown} manners as they should be")


try:
    main()
except Different as difference:
    sys.exit(f"desk-compare: {difference}")
