#!/usr/bin/env python3
"""Refuses memory to comch, one request at a time, and looks at what it answers.

usage: bench/refused_memory.py PROGRAM

PROGRAM is the built program (crates/comch/out/comch). A piece of C is compiled and loaded before it; it counts the
requests for memory, and refuses the one with a given number. For the small runs each number is tried in turn, for the
large one a few. A run in which a request is refused ends with status 5 and `refused memory`; or with status 5 and
nothing, where the words of the command line could not be held; or it answers as if nothing had been refused, where it
did without that memory. One line is printed for each run, with how many numbers gave which ending, and the status is 1
where there is another ending.
"""

import os
import subprocess
import sys
import tempfile
from collections import Counter
from pathlib import Path

REFUSER = r"""
#include <errno.h>
#include <fcntl.h>
#include <stdio.h>
#include <stdlib.h>

void *__libc_malloc(size_t size);
void *__libc_calloc(size_t count, size_t size);
void *__libc_realloc(void *old, size_t size);
void *__libc_memalign(size_t alignment, size_t size);

static long asked, refused;

static int refuses(void) {
    if (++asked != refused) return 0;
    errno = ENOMEM;
    return 1;
}

void *malloc(size_t size) { return refuses() ? NULL : __libc_malloc(size); }
void *calloc(size_t count, size_t size) { return refuses() ? NULL : __libc_calloc(count, size); }
void *realloc(void *old, size_t size) { return refuses() ? NULL : __libc_realloc(old, size); }
void *memalign(size_t alignment, size_t size) { return refuses() ? NULL : __libc_memalign(alignment, size); }
void *aligned_alloc(size_t alignment, size_t size) { return memalign(alignment, size); }
int posix_memalign(void **into, size_t alignment, size_t size) {
    void *made = memalign(alignment, size);
    if (made == NULL) return ENOMEM;
    *into = made;
    return 0;
}

__attribute__((constructor)) static void begin(void) {
    const char *number = getenv("REFUSED");
    refused = number == NULL ? 0 : atol(number);
    asked = 0;
}

__attribute__((destructor)) static void end(void) {
    const char *path = getenv("ASKED_IN");
    int file = path == NULL ? -1 : open(path, O_WRONLY | O_CREAT | O_TRUNC, 0600);
    if (file >= 0) dprintf(file, "%ld", asked);
}
"""
POINT = "comch 1\nprime 2\ncomplex pt\nfacet 0\nend\n"
CIRCLE = "comch 1\nprime 3\ncomplex circle\nfacet 0 1\nfacet 0 2\nfacet 1 2\nend\n"
# a run with more requests than this is tried with its first requests, and then with every so many
MANY, FIRST, STEP = 20_000, 300, 500


class Refuser:
    """The program with the piece of C before it."""

    def __init__(self, program, folder):
        self.program, self.library, self.count = program, f"{folder}/refuser.so", f"{folder}/asked"
        (Path(folder) / "refuser.c").write_text(REFUSER, encoding="ascii")
        subprocess.run(["cc", "-O2", "-shared", "-fPIC", "-o", self.library, f"{folder}/refuser.c"], check=True)

    def run(self, words, text, number=0):
        """The status and the text of a run in which the request of this number is refused, and how many there were."""
        around = {**os.environ, "LD_PRELOAD": self.library, "REFUSED": str(number), "ASKED_IN": self.count}
        ran = subprocess.run([self.program, *words], input=text.encode(), stdout=subprocess.PIPE, env=around, check=False)
        return (ran.returncode, ran.stdout.decode()), int(Path(self.count).read_text(encoding="ascii") or 0)


def numbers_of(asked):
    return [number for number in range(1, asked + 1) if asked <= MANY or number <= FIRST or number % STEP == 0]


def try_run(refuser, words, text):
    """Tries the numbers of a run. Whether each ends as it should."""
    answer, asked = refuser.run(words, text)
    if answer[0] != 0 or asked == 0:
        sys.exit(f"{' '.join(words)}: status {answer[0]}, {asked} requests: this program does not take its memory from the C library")
    endings = {(5, "refused memory\n"): "refused memory", (5, ""): "nothing, status 5", answer: "the answer"}
    found = Counter(endings.get(refuser.run(words, text, number)[0], "ANOTHER ENDING") for number in numbers_of(asked))
    print(f"{' '.join(words):14} {asked:8} requests, {found.total():5} tried: " + ", ".join(f"{count} {ending}" for ending, count in found.items()), flush=True)
    return "ANOTHER ENDING" not in found


def main():
    if len(sys.argv) != 2 or sys.argv[1] in ("-h", "--help"):
        sys.exit(__doc__)
    program = str(Path(sys.argv[1]).resolve())
    certificate = subprocess.run([program, "certify"], input=CIRCLE, stdout=subprocess.PIPE, text=True, check=True).stdout
    with tempfile.TemporaryDirectory() as folder:
        refuser = Refuser(program, folder)
        runs = [(["basis"], POINT), (["certify"], CIRCLE), (["check"], certificate), (["sample", "494", "3"], "")]
        kept = [try_run(refuser, words, text) for words, text in runs]
    sys.exit(0 if all(kept) else 1)


if __name__ == "__main__":
    main()
