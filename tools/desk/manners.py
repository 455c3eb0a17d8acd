"""How the desk reads, writes and fails: input in pieces, input without an end, files that cannot be read, a closed pipe, output
that cannot be written, and why an input is refused."""
import os
import random
import subprocess
import tempfile
import threading

import cases
import reasons
from reasons import ENOUGH

# The memory, in KiB, that the desk has to do with however long its input is. An emulator takes more for itself, and is not held
# to it.
MEMORY = 16384
SECONDS = 60


def bounded(desk):
    """The desk as a command that has no more than so much memory."""
    if os.environ.get("EMULATED") == "yes":
        return [desk]
    return ["sh", "-c", f'ulimit -v {MEMORY} && exec "$0" "$@"', desk]


def in_pieces(desk, data):
    """An input through a pipe, in pieces of 1 to 50 bytes."""
    rng = random.Random(1)
    with subprocess.Popen([desk], stdin=subprocess.PIPE, stdout=subprocess.PIPE, stderr=subprocess.DEVNULL) as child:
        at = 0
        while at < len(data):
            step = rng.randint(1, 50)
            child.stdin.write(data[at : at + step])
            child.stdin.flush()
            at += step
        child.stdin.close()
        return child.stdout.read()


def without_end(desk, first, again):
    """An input that never ends: a beginning, and then the same bytes for ever."""

    def feed(pipe):
        try:
            pipe.write(first)
            while True:
                pipe.write(again * 1000)
        except BrokenPipeError:
            pass

    child = subprocess.Popen(bounded(desk), stdin=subprocess.PIPE, stdout=subprocess.PIPE, stderr=subprocess.PIPE)
    source = os.fdopen(os.dup(child.stdin.fileno()), "wb")
    child.stdin.close()
    child.stdin = None
    feeder = threading.Thread(target=feed, args=(source,), daemon=True)
    feeder.start()
    return child.communicate(timeout=SECONDS)


def read_of(desk, data):
    """How many bytes of a file the desk reads as its standard input."""
    with tempfile.TemporaryFile() as file:
        file.write(data)
        file.flush()
        file.seek(0)
        subprocess.run([desk], stdin=file, stdout=subprocess.DEVNULL, stderr=subprocess.DEVNULL, check=True)
        return os.lseek(file.fileno(), 0, os.SEEK_CUR)


def onto_closed_pipe(desk, ignored):
    """What the desk says and how it ends where nobody reads what it writes; SIGPIPE is left as it is, or ignored."""
    reader, writer = os.pipe()
    os.close(reader)
    child = subprocess.Popen([desk, cases.TRUCK], stdout=writer, stderr=subprocess.PIPE, restore_signals=not ignored)
    os.close(writer)
    said = child.communicate(timeout=SECONDS)[1]
    return said, child.returncode


def see(desk, second, Different):
    """Sees that all is as it should be, and answers how many things were seen."""
    count = 0

    def expect(right, what):
        nonlocal count
        if not right:
            raise Different(f"not as it should be: {what}")
        count += 1

    def run(*words, **how):
        return subprocess.run([desk, *words], capture_output=True, timeout=SECONDS, **how)

    truck = open(cases.TRUCK, "rb").read()
    longest = cases.text((b"c" * 16, b"v" * 16), [4294967295] * cases.MOST_LINES)
    for data in (cases.EXAMPLE, truck, truck[:-1], b"own\tc\tv\n" + b"iv\t64\n" * 9000 + b"iv\n"):
        expect(in_pieces(desk, data) == second(data), "the text of an input that comes in small pieces")
    for first, again in ((b"own\tc\tv\n", b"iv\t64\n"), (b"", b"y\n"), (b"", b"y"), (longest, b"\n"), (b"own\tc\tv\n", b"\0")):
        out, said = without_end(desk, first, again)
        text = second(first + again * ENOUGH)
        expect((out, said) == (text, reasons.said(first + again * ENOUGH, text)), f"the text of an endless input of {again!r}")
    for size in (0, 1, ENOUGH - 1, ENOUGH, ENOUGH + 1, 3000000):
        expect(read_of(desk, b"y" * size) == min(size, ENOUGH), f"how much is read of {size} bytes")
    for data in (longest, b"own\tc\tv\n" + b"iv\t64\n" * 2000000):
        ran = subprocess.run(bounded(desk), input=data, capture_output=True)
        text = second(data)
        expect((ran.stdout, ran.stderr) == (text, reasons.said(data, text)), f"the text of {len(data)} bytes in {MEMORY} KiB")

    with tempfile.TemporaryDirectory() as folder:
        for name in ("missing", "missing/file", "", "/proc/self/mem"):
            path = os.path.join(folder, name) if name[:1] != "/" else name
            ran = run(path)
            expect(not ran.stdout and path.encode() in ran.stderr, f"{path!r}, which cannot be read")
        ran = run("")
        expect(not ran.stdout and ran.stderr, "an empty name")
        ran = run("x" * 5000)
        expect(not ran.stdout and ran.stderr, "a name that is too long")
        ran = run(b"\xff\xfe")
        expect((ran.stdout, ran.returncode) == (b"", 0) and ran.stderr == b"desk: the argument: it is not UTF-8\n", "a name that is not UTF-8")
        named = os.path.join(folder, "a b\n\t-")
        with open(named, "wb") as file:
            file.write(truck)
        expect(run(named).stdout == second(truck), "a file with an odd name")
        secret = os.path.join(folder, "secret")
        with open(secret, "wb") as file:
            file.write(truck)
        os.chmod(secret, 0)
        if not os.access(secret, os.R_OK):
            ran = run(secret)
            expect(not ran.stdout and secret.encode() in ran.stderr, "a file that one may not read")
    for words in ((), ("-",)):
        ran = subprocess.run(["sh", "-c", 'exec "$0" "$@" <&-', desk, *words], capture_output=True)
        expect(not ran.stdout and b"standard input" in ran.stderr, "a closed standard input")

    for ignored in (False, True):  # std ignores SIGPIPE, whatever the desk is started with
        said, status = onto_closed_pipe(desk, ignored)
        expect(said == b"standard output: Broken pipe\n" and status == 0, "a closed output pipe")
    for shell, why in (
        ('exec "$0" "$1" >&-', b"Bad file descriptor"),
        ('exec "$0" "$1" >/dev/full', b"No space left on device"),
        ('trap "" XFSZ && ulimit -f 0 && exec "$0" "$1" >"$2"', b"File too large"),
    ):
        with tempfile.NamedTemporaryFile() as file:
            ran = subprocess.run(["sh", "-c", shell, desk, cases.TRUCK, file.name], capture_output=True, timeout=SECONDS)
        expect(ran.stderr == b"standard output: " + why + b"\n", f"output that cannot be written: {why.decode()}")

    for data, line, why in (
        (b"", 1, b"the input has no such line"),
        (b"own\tc\tv", 1, b"no newline closes it"),
        (b"own\tc\tv\r\niv\t64\r\n", 1, b"a carriage return stands before its newline"),
        (b"own\tc\tv\niv\t64\r\n", 2, b"a carriage return stands before its newline"),
        (b"own\tc\t\n", 1, b"it is not own, customer and vehicle, parted by tabs"),
        (b"own\tc\tv\niv\t064\n", 2, b"it is not iv and a width, parted by a tab"),
        (b"own\tc\tv\n" + b"iv\t64\n" * 16385, 16386, b"16384 lines with a width stand before it"),
    ):
        ran = run(input=data)
        expect(ran.stdout == b"refused\t%d\n" % line and ran.stderr == b"desk: line %d: %s\n" % (line, why), f"why an input is refused: {why.decode()}")

    ran = subprocess.run(["sh", "-c", 'exec "$0" --help >/dev/full', desk], capture_output=True, timeout=SECONDS)
    expect(ran.stderr == b"standard output: No space left on device\n", "--help that cannot be written")
    ran = run("--help", stdin=subprocess.DEVNULL)
    told = [b"desk FILE", b"refused", b"frame", b"quiet", b"unfinished"] + [b"fault-%d " % n for n in range(11, 21)]
    expect(not ran.stderr and all(word in ran.stdout for word in told), "--help")
    ran = run(cases.TRUCK, cases.TRUCK)
    expect(not ran.stdout and ran.stderr, "two arguments")
    return count
