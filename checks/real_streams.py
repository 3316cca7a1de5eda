#!/usr/bin/env python3
"""Runs the built program on real streams, good ones, slow ones and failing ones.

usage: real_streams.py PROGRAM

Of each case the status and the output are compared, byte for byte, and nothing may come on standard error. What
can't be had on a machine (a device that is full, a bound on memory) is told, and counts for nothing. The last line
is `N passed, M failed`.
"""
import os
import resource
import subprocess
import sys
import threading
import time

# the seconds that a case may take
PATIENCE = 60

# more bytes than a pipe holds
PIPE = 65536

# how much address space the script of great counts gets: less than so many items of one byte take
ROOM = 2 << 30

HEADER = b"eris 1 1 0 1\n"
SCRIPT = HEADER + b"submit 0 put 0/a 7\nflow 3\n"
HEAD = b"eris report 1\nconfig 1 0 1\n"
COORDINATOR = b"coordinator epoch 0 target 0 found 0 dropped 0\n"
REPORT = (
    HEAD
    + b"submit 0.1 put 0/a 7\nanswer 0.1 ok\norder 0.1 done 0 0:1\n"
    + b"replica 0 0 normal epoch 0 view 0 held 1 length 1 settled 0\n"
    + COORDINATOR
    + b"sent 3\nend\n"
)


def idle(sent, history=b""):
    """The report of a system whose only replica has done nothing."""
    replica = b"replica 0 0 normal epoch 0 view 0 held 0 length 0 settled 0\n"
    return HEAD + history + replica + COORDINATOR + b"sent %d\nend\n" % sent


def long_run(count):
    """A script of so many submissions of which nothing is delivered, and its report."""
    history = b"".join(b"submit 0.%d get 0/a\n" % number for number in range(1, count + 1))
    return HEADER + b"submit 0 get 0/a\n" * count, idle(count, history)


def great_counts():
    """Messages that end behind a count of 4,294,967,295 of each list, with no item and with one."""
    place = "0000000001"
    packet = "00000007" "01" + place + "0000000001" "00" "0401" "000161"
    found = [("021400000001" "00", packet), ("0210" "000000070000000400000003", place)]
    for head in ("020c" "02" "00000004", "020d" "00000004", "0213" "02" "00000008"):
        part = head + "00" "00000007"
        found.append((part, "00000001" + packet))
        found += [(part + "00000000" * lists, place) for lists in (1, 2, 3)]
    return [head + "ffffffff" + item for head, one in found for item in ("", one)]


def noise():
    """A script that hands these to each kind of node."""
    nodes = ("rep 0 0", "coord", "cli 0", "seq")
    lines = [f"noise {node} {digits}\n" for digits in great_counts() for node in nodes]
    return HEADER + "".join(lines).encode()


class Late(Exception):
    """The case took too long."""


def feed(to, data, each, pause):
    """Writes the bytes in pieces, and ends the stream."""
    try:
        for at in range(0, len(data), each):
            os.write(to, data[at:at + each])
            time.sleep(pause)
    except OSError:
        pass
    finally:
        os.close(to)


def write_whole(to, data):
    """Writes the bytes as fast as they are taken, and ends the stream."""
    try:
        rest = memoryview(data)
        while rest:
            rest = rest[os.write(to, rest):]
    except OSError:
        pass
    finally:
        os.close(to)


def drain(source, into, each, pause):
    """Reads all that comes, in pieces."""
    while piece := os.read(source, each):
        into.append(piece)
        time.sleep(pause)
    os.close(source)


def start(command, source, sink, bound=None):
    """Starts the command on these two streams, with its standard error in a pipe."""
    limit = (lambda: resource.setrlimit(resource.RLIMIT_AS, (bound, bound))) if bound else None
    return subprocess.Popen(
        command, stdin=source, stdout=sink, stderr=subprocess.PIPE, preexec_fn=limit
    )


def end(child):
    """The status of the program and what it wrote to standard error."""
    try:
        said = child.communicate(timeout=PATIENCE)[1]
    except subprocess.TimeoutExpired:
        child.kill()
        child.communicate()
        raise Late from None
    return child.returncode, said


def run(command, data, sent=None, got=None, delay=0.0, bound=None):
    """Runs the command from a pipe to a pipe. `sent` and `got` are the bytes of a piece and the pause after it."""
    given, source = os.pipe()[::-1]
    sink, taken = os.pipe()[::-1]
    child = start(command, source, sink, bound)
    os.close(source)
    os.close(sink)
    written = []
    feeding = (feed, (given, data, *sent)) if sent else (write_whole, (given, data))
    reading = (drain, (taken, written, *(got or (PIPE, 0.0))))
    threads = [threading.Thread(target=call, args=args, daemon=True) for call, args in (feeding, reading)]
    threads[0].start()
    time.sleep(delay)
    threads[1].start()
    status, said = end(child)
    for thread in threads:
        thread.join(PATIENCE)
    return status, b"".join(written), said


def run_on(command, source=None, sink=None):
    """Runs the command on files that are opened here. Nothing where an end is None; a sink's bytes aren't seen."""
    files = []
    try:
        for path, mode in ((source, os.O_RDONLY), (sink, os.O_WRONLY)):
            files.append(os.open(path or os.devnull, mode))
        child = start(command, files[0], files[1] if sink else subprocess.PIPE)
        if sink:
            status, said = end(child)
            return status, b"", said
        written, said = child.communicate(timeout=PATIENCE)
        return child.returncode, written, said
    except subprocess.TimeoutExpired:
        child.kill()
        child.communicate()
        raise Late from None
    finally:
        for it in files:
            os.close(it)


def run_closed(command, data, closed):
    """Runs the command with these streams closed: `<&-`, `>&-` or both."""
    child = subprocess.Popen(
        ["sh", "-c", f'exec "$0" "$@" {closed}', *command],
        stdin=subprocess.PIPE, stdout=subprocess.PIPE, stderr=subprocess.PIPE,
    )
    try:
        written, said = child.communicate(data, timeout=PATIENCE)
    except subprocess.TimeoutExpired:
        child.kill()
        child.communicate()
        raise Late from None
    return child.returncode, written, said


def run_unread(command, data, read):
    """Runs the command with a reader that is gone once it has read so many bytes. What was read is told."""
    given, source = os.pipe()[::-1]
    sink, taken = os.pipe()[::-1]
    child = start(command, source, sink)
    os.close(source)
    os.close(sink)
    front = b""
    if not read:
        os.close(taken)
    feeding = threading.Thread(target=write_whole, args=(given, data), daemon=True)
    feeding.start()
    if read:
        while len(front) < read and (piece := os.read(taken, read - len(front))):
            front += piece
        os.close(taken)
    status, said = end(child)
    feeding.join(PATIENCE)
    return status, front, said


class Tally:
    """How many cases passed and failed."""

    def __init__(self):
        self.passed = self.failed = 0

    def judge(self, name, call, status, text):
        """Makes the call and compares its end with what is due."""
        try:
            wanted, got = (status, text, b""), call()
        except Late:
            got = (None, b"", b"")
            print(f"{name}: no end in {PATIENCE} seconds")
        if got == wanted:
            self.passed += 1
            return
        self.failed += 1
        for what, one, due in zip(("status", "output", "standard error"), got, wanted):
            if one != due:
                print(f"{name}: {what} {str(one)[:300]}, due {str(due)[:300]}")


def fits(command, bound):
    """Whether the program runs the first script in so much address space."""
    try:
        return run(command, SCRIPT, bound=bound) == (0, REPORT, b"")
    except (OSError, ValueError, subprocess.SubprocessError, Late):
        return False


def good_streams(tally, program):
    """Streams that don't fail."""
    script, report = long_run(8000)
    command = [program, "run"]
    tally.judge("a script", lambda: run(command, SCRIPT), 0, REPORT)
    tally.judge("byte by byte in", lambda: run(command, SCRIPT, sent=(1, 0.02)), 0, REPORT)
    tally.judge("byte by byte out", lambda: run(command, SCRIPT, got=(1, 0.005)), 0, REPORT)
    slow = lambda: run(command, SCRIPT, sent=(1, 0.02), got=(1, 0.005))
    tally.judge("byte by byte in and out", slow, 0, REPORT)
    assert min(len(script), len(report)) > PIPE
    tally.judge("more than a pipe holds", lambda: run(command, script), 0, report)
    waits = lambda: run(command, script, delay=1.0)
    tally.judge("more than a pipe holds, read late", waits, 0, report)
    check = lambda: run([program, "check"], report)
    tally.judge("a report longer than a pipe", check, 0, b"yes\n")
    migrate = lambda: run([program, "migrate"], script)
    tally.judge("a script to migrate longer than a pipe", migrate, 0, b"eris 2" + script[6:])
    tally.judge("no byte", lambda: run_on(command), 3, b"bad script: line 1 Header\n")
    comment = HEADER + b"# \xff\xfe\x80\xc0\r\n"
    tally.judge("a comment that is no text", lambda: run(command, comment), 0, idle(0))
    zero = lambda: run(command, HEADER + b"\0\n")
    tally.judge("a line of a zero byte", zero, 3, b"bad script: line 2 Word\n")
    within = lambda: run(command, HEADER + b"flow\x00 3\n")
    tally.judge("a zero byte in a word", within, 3, b"bad script: line 2 Word\n")


def failing_streams(tally, program):
    """Streams that fail at once, and later."""
    script, report = long_run(8000)
    folder = os.path.dirname(os.path.abspath(__file__))
    for word in ("run", "check", "migrate"):
        command = [program, word]
        tally.judge(f"{word} from a folder", lambda: run_on(command, folder), 4, b"")
    words = lambda: run_on([program, "walk"], folder)
    tally.judge("wrong words, from a folder", words, 2, b"")
    drill = run([program, "drill", "1"], b"")
    good = drill[0] == 0 and b"submitted 17\n" in drill[1] and b"total 16000\n" in drill[1]
    tally.judge("a drill", lambda: (0 if good else drill[0], b"", drill[2]), 0, b"")
    reads_nothing = lambda: run_on([program, "drill", "1"], folder)
    tally.judge("a drill, from a folder", reads_nothing, 0, drill[1])
    if os.path.exists("/dev/full"):
        for word, text in (("run", SCRIPT), ("check", REPORT), ("migrate", SCRIPT)):
            full = lambda: run_full([program, word], text)
            tally.judge(f"{word} to a device that is full", full, 5, b"")
        full = lambda: run_on([program, "drill", "1"], None, "/dev/full")
        tally.judge("a drill to a device that is full", full, 5, b"")
        both = lambda: run_on([program, "run"], folder, "/dev/full")
        tally.judge("from a folder to a device that is full", both, 4, b"")
        nothing = lambda: run_on([program], None, "/dev/full")
        tally.judge("no words, to a device that is full", nothing, 2, b"")
    else:
        print("there is no /dev/full here: not tried")
    gone = lambda: run_unread([program, "run"], SCRIPT, 0)
    tally.judge("a reader that is gone", gone, 5, b"")
    leaves = lambda: run_unread([program, "run"], script, 10)
    tally.judge("a reader that leaves", leaves, 5, report[:10])


def run_full(command, data):
    """Runs the command from a pipe to a device that is full."""
    given, source = os.pipe()[::-1]
    sink = os.open("/dev/full", os.O_WRONLY)
    child = start(command, source, sink)
    os.close(source)
    os.close(sink)
    feeding = threading.Thread(target=write_whole, args=(given, data), daemon=True)
    feeding.start()
    status, said = end(child)
    feeding.join(PATIENCE)
    return status, b"", said


def closed_streams(tally, program):
    """Streams that are closed before the program begins."""
    command = [program, "run"]
    tally.judge("closed standard input", lambda: run_closed(command, b"", "<&-"), 4, b"")
    tally.judge("closed standard output", lambda: run_closed(command, SCRIPT, ">&-"), 5, b"")
    both = lambda: run_closed(command, b"", "<&- >&-")
    tally.judge("both closed", both, 4, b"")


def small_memory(tally, program):
    """Messages with great counts, in less memory than so many items could have."""
    command = [program, "run"]
    if fits(command, ROOM):
        script = noise()
        tally.judge("great counts", lambda: run(command, script, bound=ROOM), 0, idle(0))
    else:
        print(f"the first script doesn't run in {ROOM} bytes of address space here: great counts not tried")


def open_low_files():
    """Opens the three standard streams where they are closed, so that no pipe gets their numbers."""
    while (it := os.open(os.devnull, os.O_RDWR)) < 3:
        pass
    os.close(it)


def main():
    if len(sys.argv) != 2:
        print(__doc__)
        return 2
    open_low_files()
    program = os.path.abspath(sys.argv[1])
    if not os.access(program, os.X_OK):
        print(f"{sys.argv[1]} is no program")
        return 2
    tally = Tally()
    good_streams(tally, program)
    failing_streams(tally, program)
    closed_streams(tally, program)
    small_memory(tally, program)
    print(f"{tally.passed} passed, {tally.failed} failed")
    return 1 if tally.failed else 0


if __name__ == "__main__":
    sys.exit(main())
