#!/usr/bin/env python3
"""Runs a built program with one of its allocations refused, the first, the second and so on, until none is left.

usage: refused_memory.py PROGRAM FOLDER..     runs of `eris`
       refused_memory.py --values PROGRAM RUN     the program that tries refusals, with the text that it must print

A folder has scripts with what is due: `NAME.eris` with `NAME.report`, or `NAME.in` with `NAME.want`, and beside the
latter the words in `NAME.words` (`run` without it) and the status in `NAME.status` (0 without it). Each run with an
allocation refused must end with status 6, nothing written and nothing on standard error. One that the program can do
without may also end in the status and the text that are due. Wrong words must end in their own status, or in 6. Of a
script of more than 100,000 bytes every thousandth allocation is refused. A drill is tried too: `drill 1`.

Of each run it prints how many allocations there are, which of them could be done without, and the seconds. The last
line is `N passed, M failed`. It needs a C compiler, `cc`, and a program that calls `malloc` and `realloc` of a shared
C library: a few lines that are loaded before that library stand in for the two.
"""
import concurrent.futures
import os
import shutil
import subprocess
import sys
import tempfile
import time

# the seconds that one run may take
PATIENCE = 300

# how large a script is not swept whole, and how far apart its refused allocations are
LARGE, STRIDE = 100_000, 1000

NO_MEMORY, USAGE = 6, 2

STAND_IN = r"""
#define _GNU_SOURCE
#include <dlfcn.h>
#include <errno.h>
#include <stdlib.h>
#include <unistd.h>

/* How many calls are to come before the refused one, and after it. */
static long left, calls;
static void *(*real_malloc)(size_t), *(*real_realloc)(void *, size_t);

__attribute__((constructor)) static void begin(void) {
    const char *number = getenv("REFUSED_CALL");
    real_malloc = dlsym(RTLD_NEXT, "malloc");
    real_realloc = dlsym(RTLD_NEXT, "realloc");
    left = number ? atol(number) : 0;
    calls = 0;
}

static int is_refused(void) {
    calls++;
    if (left == 0 || --left > 0) return 0;
    errno = ENOMEM;
    return 1;
}

void *malloc(size_t size) {
    if (!real_malloc) real_malloc = dlsym(RTLD_NEXT, "malloc");
    return is_refused() ? NULL : real_malloc(size);
}

void *realloc(void *old, size_t size) {
    if (!real_realloc) real_realloc = dlsym(RTLD_NEXT, "realloc");
    return is_refused() ? NULL : real_realloc(old, size);
}

/* Tells at the end whether a call was refused, by a byte in the file of this number. */
__attribute__((destructor)) static void end(void) {
    const char *file = getenv("REFUSED_TOLD");
    if (file && left == 0 && getenv("REFUSED_CALL")) {
        int to = atoi(file);
        if (write(to, "r", 1) < 0) _exit(99);
    }
}
"""


class Sweep:
    """A program whose allocations are refused."""

    def __init__(self, program, folder):
        self.program = program
        self.library = os.path.join(folder, "refusing.so")
        source = os.path.join(folder, "refusing.c")
        with open(source, "w") as it:
            it.write(STAND_IN)
        subprocess.run(["cc", "-O1", "-shared", "-fPIC", "-o", self.library, source, "-ldl"], check=True)

    def run(self, words, given, number):
        """The status, what was written, what came on standard error, and whether a call was refused."""
        told, tells = os.pipe()
        env = {**os.environ, "LD_PRELOAD": self.library, "REFUSED_CALL": str(number), "REFUSED_TOLD": str(tells)}
        try:
            done = subprocess.run(
                [self.program, *words], input=given, stdout=subprocess.PIPE, stderr=subprocess.PIPE,
                env=env, pass_fds=[tells], timeout=PATIENCE,
            )
        finally:
            os.close(tells)
        with os.fdopen(told, "rb") as it:
            was_refused = it.read() != b""
        return done.returncode, done.stdout, done.stderr, was_refused

    def turns(self, words, given, stride):
        """The ends of the runs with one call refused, by its number, until no call is left to refuse."""
        with concurrent.futures.ThreadPoolExecutor(os.cpu_count() or 1) as pool:
            first = 1
            while True:
                numbers = range(first, first + 64 * stride, stride)
                ends = pool.map(lambda number: self.run(words, given, number), numbers)
                for number, (status, text, said, was_refused) in zip(numbers, ends):
                    yield number, status, text, said, was_refused
                    if not was_refused:
                        return
                first += 64 * stride


def read(path, otherwise=None):
    if not os.path.exists(path):
        return otherwise
    with open(path, "rb") as it:
        return it.read()


def rows_of(folder):
    """The rows of a folder: name, words, input, status and text that are due."""
    for entry in sorted(os.listdir(folder)):
        name, ending = os.path.splitext(os.path.join(folder, entry))
        if ending == ".eris" and os.path.exists(name + ".report"):
            yield name, ["run"], read(name + ending), 0, read(name + ".report")
        if ending == ".in":
            words = read(name + ".words", b"run").decode().split()
            status = int(read(name + ".status", b"0"))
            yield name, words, read(name + ending), status, read(name + ".want", b"")


def try_row(sweep, name, words, given, status, text):
    """Whether each end is one of those that are due."""
    begun, spared, wrong, last = time.time(), [], 0, 0
    stride = STRIDE if len(given) > LARGE else 1
    for number, got, written, said, was_refused in sweep.turns(words, given, stride):
        is_own = (got, written, said) == (status, text, b"")
        if not was_refused:
            last = number - 1
            wrong += report(name, number, got, written, said) if not is_own else 0
        elif is_own:
            spared.append(number)
        elif (got, written, said) != (NO_MEMORY, b"", b""):
            wrong += report(name, number, got, written, said)
    about = f"about {last}" if stride > 1 else f"{last}"
    without = f", can do without {' '.join(map(str, spared))}" if spared else ""
    print(f"{name}: {about} allocations{without}, {time.time() - begun:.1f} s", flush=True)
    return not wrong


def report(name, number, status, written, said):
    print(f"{name}: with call {number} refused: status {status}, {written[:200]!r}, {said[:200]!r}")
    return 1


def differs_by_one(text, due):
    """Whether at most one line is another one, and that says that memory was refused while a value was made."""
    lines, wanted = text.split(b"\n"), due.split(b"\n")
    if len(lines) != len(wanted):
        return False
    others = [one for one, other in zip(lines, wanted) if one != other]
    return not others or (len(others) == 1 and others[0].endswith(b": refused while making"))


def try_values(sweep, text):
    """Runs the program that tries refusals."""
    begun, wrong, last = time.time(), 0, 0
    for number, status, written, said, was_refused in sweep.turns([], b"", 1):
        last = number - 1
        if status or said or not differs_by_one(written, text) or (not was_refused and written != text):
            wrong += report("values", number, status, written, said)
    print(f"values: {last} allocations, {time.time() - begun:.1f} s")
    return not wrong


def tried(sweep, folders):
    for folder in folders:
        for row in rows_of(folder):
            yield try_row(sweep, *row)
    drill = subprocess.run([sweep.program, "drill", "1"], stdin=subprocess.DEVNULL, stdout=subprocess.PIPE)
    yield try_row(sweep, "drill 1", ["drill", "1"], b"", 0, drill.stdout)
    for words in ([], ["walk"], ["drill", "501"]):
        yield try_row(sweep, f"words {' '.join(words)}", words, b"", USAGE, b"")


def main():
    words = sys.argv[1:]
    values = words[:1] == ["--values"]
    if len(words) < (3 if values else 2):
        print(__doc__)
        return 2
    if not shutil.which("cc"):
        print("there is no C compiler, cc, here: nothing was tried")
        return 1
    with tempfile.TemporaryDirectory() as folder:
        if values:
            sweep = Sweep(os.path.abspath(words[1]), folder)
            ends = [try_values(sweep, read(words[2]))]
        else:
            sweep = Sweep(os.path.abspath(words[0]), folder)
            ends = list(tried(sweep, words[1:]))
    print(f"{ends.count(True)} passed, {ends.count(False)} failed")
    return 1 if ends.count(False) else 0


if __name__ == "__main__":
    sys.exit(main())
