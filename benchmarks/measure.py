#!/usr/bin/env python3
"""Measures the built program and prints what a line and a byte cost, as ratios.

usage: measure.py [PROGRAM]     the program is crates/eris/out/eris where none is named

- `retries`: one submission and retries of it, up to the most packets that a run may send. The time per line
  should stay the same. The memory, less that of a script of as many comments, is compared with the bytes of the
  frames that the world keeps.
- `deliveries`: many packets that wait, delivered one after another. A delivery must not look for what was
  delivered before, so the time per delivery should stay the same.
- `busy`: submissions over 4 shards of 3 replicas, each followed by its deliveries. The time of each next
  thousand is compared with that of the first.
- `report`: submissions over one shard of one replica, each with its deliveries, up to the most that a run may have.
  The report should take at most as long as the run before it, which is the time of the same script with one more
  line that is refused, so that no report is made. It ends where a run takes more than a minute.
- `check`: a serial report of so many submissions, answers and order lines is judged. Twice as many should take
  about twice the time; the memory is compared with the bytes of the report.
- `migrate`: a script of `retry` lines as long as a script may be, and one of half its length.
- `noise`: lines of 256 bytes that are no message, at each kind of node, against as many `retry` lines: bytes that
  are no message from the first on, and a message without its last bytes. A line should take at most twice the time
  of a `retry`. The memory of 16,000 lines of 120 bytes is compared with that of as many comments of their length:
  noise keeps nothing.

Nothing here is a test: the figures are the machine's, and only their ratios say something.
"""
import os
import subprocess
import sys
import tempfile

HERE = os.path.dirname(os.path.abspath(__file__))
PROGRAM = os.path.join(HERE, "..", "crates", "eris", "out", "eris")

# the most packets that a run may send, and the status of a script with a line that is refused
MOST_SENT = 262144
BAD_SCRIPT = 3

# the bytes of the frame of an Ask that reads one key with a name of one byte
ASK_FRAME = 18

# how often a short run is measured; the shortest time counts
TURNS = 5

# the digits of the first 256 of the 258 bytes of a message with a list of 48 ascending places
CUT_SHORT = ("0210" "00000007" "00000004" "00000003" "00000030" + "".join("00%08x" % n for n in range(1, 49)))[:512]


def high_water(pid):
    """The most KiB of memory that the process has held so far; 0 where it has ended."""
    try:
        with open(f"/proc/{pid}/status") as status:
            for line in status:
                if line.startswith("VmHWM:"):
                    return int(line.split()[1])
    except OSError:
        pass
    return 0


def run(program, script, word="run", due=0):
    """The seconds of processor time that the word takes on the text, and the most KiB of memory that were seen. It
    must end with the status that is due."""
    with tempfile.TemporaryFile() as source:
        source.write(script)
        source.seek(0)
        child = subprocess.Popen([program, word], stdin=source, stdout=subprocess.DEVNULL)
        most = 0
        while True:
            most = max(most, high_water(child.pid))
            ended, status, usage = os.wait4(child.pid, os.WNOHANG)
            if ended:
                break
    child.returncode = os.waitstatus_to_exitcode(status)
    if child.returncode != due:
        sys.exit(f"{word} ended with status {child.returncode}")
    return usage.ru_utime + usage.ru_stime, most


def retries(program):
    head = b"eris 1 1 0 1\nsubmit 0 get 0/a\n"
    first = None
    for count in (32768, 65536, 131072, 262143):
        _, empty = run(program, head + b"# try 0 1\n" * count)
        seconds, most = run(program, head + b"retry 0 1\n" * count)
        each = seconds / count * 1e6
        first = first or each
        kept = count * ASK_FRAME
        memory = (most - empty) * 1024 / kept
        print(f"retries    {count:7} lines {seconds:8.2f} s  {each:8.2f} us a line, {each / first:5.2f} of the first;"
              f"  {memory:5.1f} bytes of memory for each byte of a kept frame")


def deliveries(program):
    head = b"eris 1 1 0 1\nsubmit 0 get 0/a\n"
    first = None
    for count in (2000, 4000, 8000, 16000):
        script = head + b"retry 0 1\n" * count + b"lose %d\n" % count
        seconds, _ = run(program, script)
        each = seconds / count * 1e6
        first = first or each
        print(f"deliveries {count:7} times {seconds:8.2f} s  {each:8.2f} us each,  {each / first:5.2f} of the first")


def busy(program):
    lines = [b"eris 1 4 1 4\n"]
    before, first = 0.0, None
    for thousand in range(1, 6):
        for turn in range((thousand - 1) * 1000, thousand * 1000):
            lines.append(b"submit %d put %d/k%d %d\nflow 7\n" % (turn % 4, turn % 4, turn % 97, turn))
        seconds, most = run(program, b"".join(lines))
        more = seconds - before
        first = first or more
        print(f"busy       {thousand * 1000:7} submissions {seconds:8.2f} s, {more:8.2f} s for the last thousand,"
              f" {more / first:5.2f} of the first;  {most // 1024} MiB")
        before = seconds


def reported(program):
    head = b"eris 1 1 0 1\n"
    for count in (1024, 2048, 4096, 8192, MOST_SENT // 3):
        # an ask, its stamped packet and a reply, three packets for each
        script = head + b"submit 0 get 0/a\nflow 3\n" * count
        before, _ = run(program, script + b"deliver %d\n" % MOST_SENT, due=BAD_SCRIPT)
        seconds, _ = run(program, script)
        report = seconds - before
        print(f"report     {count:7} submissions {before:8.2f} s, and {report:8.2f} s for the report,"
              f" {report / before:5.2f} of the run")
        if before > 60:
            break


def judged(program):
    tail = b"replica 0 0 normal epoch 0 view 0 held 0 length 0 settled 0\n"
    tail += b"coordinator epoch 0 target 0 found 0 dropped 0\nsent 0\nend\n"
    first = None
    for count in (200000, 400000):
        lines = [b"eris report 1\nconfig 1 0 1\n"]
        for number in range(1, count + 1):
            lines.append(b"submit 0.%d put 0/k%d 7\nanswer 0.%d ok\n" % (number, number % 97, number))
        for number in range(1, count + 1):
            lines.append(b"order 0.%d done 0 0:%d\n" % (number, number))
        report = b"".join(lines) + tail
        seconds, most = run(program, report, "check")
        first = first or seconds
        print(f"check      {count:7} submissions {seconds:6.2f} s, {seconds / first:5.2f} of the first;"
              f"  {most * 1024 / len(report):5.1f} bytes of memory for each byte of the report")


def migrated(program):
    head = b"eris 1 1 0 1\n"
    first = None
    for count in (209714, 419429):
        script = head + b"retry 0 1\n" * count
        seconds, most = run(program, script, "migrate")
        first = first or seconds
        print(f"migrate    {len(script):7} bytes {seconds:8.2f} s, {seconds / first:5.2f} of the first;"
              f"  {most * 1024 / len(script):5.1f} bytes of memory for each byte of the script")


def shortest(program, script):
    """The shortest time that the script takes, in some turns."""
    return min(run(program, script)[0] for _ in range(TURNS))


def noise(program):
    head = b"eris 1 1 0 1\nsubmit 0 get 0/a\n"
    count = 7900
    empty = shortest(program, head)
    retry = shortest(program, head + b"retry 0 1\n" * count) - empty
    kinds = (("no message", "ff" * 256), ("cut short", CUT_SHORT))
    for node in (b"rep 0 0", b"coord", b"cli 0", b"seq"):
        for kind, digits in kinds:
            line = b"noise %s %s\n" % (node, digits.encode())
            seconds = shortest(program, head + line * count) - empty
            print(f"noise      {count:7} lines to {node.decode():7} {kind:10} {seconds / count * 1e6:8.2f} us a line,"
                  f" {seconds / retry:5.2f} of a retry")
    count = 16000
    for kind, digits in kinds:
        line = b"noise rep 0 0 %s\n" % digits[:240].encode()
        _, most = run(program, head + line * count)
        _, silent = run(program, head + (b"#" + line[1:]) * count)
        print(f"noise      {count:7} lines of 120 bytes, {kind}: {most} KiB of memory, {silent} KiB for as many comments")


def main():
    program = os.path.abspath(sys.argv[1]) if len(sys.argv) > 1 else PROGRAM
    retries(program)
    deliveries(program)
    busy(program)
    reported(program)
    judged(program)
    migrated(program)
    noise(program)


main()
