#!/usr/bin/env python3
"""Makes calls of the host fail, one a run, and looks at what the program answers.

usage: failing_calls.py PROGRAM

A library that is loaded before the C library counts the calls of malloc and realloc, of read and of write, and refuses the one of a
given number; or it lets each read or write have a few bytes only. What has to come of it, by docs/FORMATS.md, "Command line":

- A refused allocation: the answer of the run without a failure, or status 11 and the line `no memory`, before which lines of first
  results of that run may stand, in the mode make first lines; nothing at all where the words themselves couldn't be kept.
- A refused read: status 3 and the line `read fault`.
- A refused write: status 10 and a front of the run's text.
- A few bytes a call: the answer of the run.

Of more than MOST calls of a kind the first and evenly spread ones are refused. Prints a line for each case, and last
'N passed, M failed'. Where no C compiler is installed, or it can't build the library, it says so, and tries nothing.
"""

import os
import shutil
import subprocess
import sys
import tempfile

TOP = os.path.dirname(os.path.dirname(os.path.abspath(__file__)))
MOST = 400
KINDS = ["allocation", "read", "write"]

SHIM = """
#define _GNU_SOURCE
#include <dlfcn.h>
#include <errno.h>
#include <fcntl.h>
#include <stdio.h>
#include <stdlib.h>
#include <string.h>
#include <unistd.h>
extern void *__libc_malloc(size_t);
extern void *__libc_realloc(void *, size_t);
static long calls[3], refused[3], most[3];
static int over;
static int is_refused(int kind) { return ++calls[kind] == refused[kind]; }
void *malloc(size_t size) {
    if (is_refused(0)) { errno = ENOMEM; return 0; }
    return __libc_malloc(size);
}
void *realloc(void *old, size_t size) {
    if (is_refused(0)) { errno = ENOMEM; return 0; }
    return __libc_realloc(old, size);
}
static size_t cut(int kind, size_t size) { return most[kind] && size > (size_t)most[kind] ? (size_t)most[kind] : size; }
ssize_t read(int file, void *to, size_t size) {
    static ssize_t (*next)(int, void *, size_t);
    if (!next) next = (ssize_t (*)(int, void *, size_t))dlsym(RTLD_NEXT, "read");
    if (is_refused(1)) { errno = EIO; return -1; }
    return next(file, to, cut(1, size));
}
static ssize_t put(int file, const void *from, size_t size) {
    static ssize_t (*next)(int, const void *, size_t);
    if (!next) next = (ssize_t (*)(int, const void *, size_t))dlsym(RTLD_NEXT, "write");
    if (!over && is_refused(2)) { errno = EIO; return -1; }
    return next(file, from, over ? size : cut(2, size));
}
ssize_t write(int file, const void *from, size_t size) { return put(file, from, size); }
ssize_t __write(int file, const void *from, size_t size) { return put(file, from, size); }
static long number_in(const char *name) { const char *text = getenv(name); return text ? atol(text) : 0; }
__attribute__((constructor)) static void begin(void) {
    refused[0] = number_in("REFUSED_ALLOCATION");
    refused[1] = number_in("REFUSED_READ");
    refused[2] = number_in("REFUSED_WRITE");
    most[1] = number_in("MOST_READ");
    most[2] = number_in("MOST_WRITE");
    memset(calls, 0, sizeof calls);
}
__attribute__((destructor)) static void end(void) {
    const char *name = getenv("COUNT_FILE");
    char line[80];
    over = 1;
    int len = snprintf(line, sizeof line, "%ld %ld %ld", calls[0], calls[1], calls[2]), file = open(name, O_WRONLY | O_CREAT | O_TRUNC, 0600);
    if (file >= 0 && write(file, line, len) == len) close(file);
}
"""

CASES = [
    ["graph", "examples/add.dg", "--args=2,3"],
    ["graph", "examples/add.dg", "--args=2,3", "--order=1,r,0"],
    ["graph", "examples/add.dg", "--args=2,3", "--order-file=ORDER"],
    ["graph", "examples/add.dg", "--args=2"],
    ["graph", "examples/branches.dg", "--args=1,4"],
    ["graph", "examples/cell.dg", "--args=9"],
    ["graph", "examples/feedback.dg", "--args=4"],
    ["graph", "examples/fib.dg", "--args=10"],
    ["graph", "examples/wavefront.dg", "--args=6"],
    ["graph", "RESULTS", "--args=7"],
    ["graph", "GONE"],
    ["tl0", "examples/branches.dg", "--args=1,4"],
    ["tl0", "examples/wavefront.dg", "--args=6"],
    ["tl0", "RESULTS", "--args=7"],
    ["tl0", "examples/cell.dg", "--args=9"],
    ["rv32", "examples/branches.dg", "--args=1,4"],
    ["rv32", "examples/cell.dg", "--args=9"],
    ["rv32", "examples/wavefront.dg", "--args=6"],
    ["rv32", "RESULTS", "--args=7"],
    ["graph", "LATE", "--args=6"],
    ["tl0", "LATE", "--args=6"],
    ["rv32", "LATE", "--args=6"],
    ["graph", "examples/wavefront.dg", "--args=16"],
    ["tl0", "examples/wavefront.dg", "--args=16"],
    ["rv32", "examples/wavefront.dg", "--args=16"],
    ["check", "examples/wavefront.dg"],
    ["check", "REFUSED"],
    ["check", "LARGE"],
    ["emit-dg", "examples/wavefront.dg"],
    ["sets", "examples/feedback.dg"],
    ["parts", "examples/wavefront.dg"],
    ["emit-tl0", "examples/branches.dg"],
    ["emit-asm", "examples/branches.dg"],
    ["emit-image", "examples/branches.dg"],
    ["assemble", "ASSEMBLY"],
    ["assemble", "REFUSED"],
    ["exec-tl0", "THREADS", "--args=2,3"],
    ["exec-tl0", "WILD"],
    ["exec-tl0", "REFUSED"],
    ["exec-rv32", "IMAGE"],
    ["exec-rv32", "TRAP"],
    ["exec-rv32", "REFUSED"],
    ["make", "ladder", "2"],
    ["make", "wave", "4"],
]

def image(results, *words):
    """The file of an image of these words."""
    numbers = [0x494D4154, 1, len(words), 32, 0, results, *words]
    return b"".join(number.to_bytes(4, "little") for number in numbers)


SUM = "dg 1\ncode main\na = param 0\nb = param 1\ns = add a b\nresult 0 s\nend\n"

FILES = {
    "ORDER": "1\nr\n0\n",
    "REFUSED": "dg 1\ncode main\nx = param\nend\n",
    "LARGE": "dg 1\n" + "# a comment\n" * 5000 + "code main\nend\n",
    "RESULTS": "dg 1\ncode main\na = param 0\n" + "".join(f"result {place} a\n" for place in range(12)) + "end\n",
    "THREADS": "tl0 2\ncodes 1 main 0\ncode 2 1 5\ninlet 2 1\ninlet 3 1\nthread 1\nstop\nthread 2\nadd 4 2 3\nret 0 4\nstop\nend\n",
    "WILD": "tl0 2\ncodes 1 main 0\ncode 0 1 2\nthread 1\nret 0 1\nret 0 1\nstop\nend\n",
    "LATE": "dg 1\ncode main\nn = const 1\nA:1 = alloc n\nz = const 0\nv = fetch A z\nx = param 0\ny = add x n\nresult 0 v\nresult 1 y\nend\n",
    "ASSEMBLY": ".image 1\n.stride 32\n.params 0\n.results 0\non:\naddi x5, x5, 1\nbne x5, x0, on\n.word 7\n",
    # addi x17, x0, 1; addi x10, x0, -1; ecall, which sends 0 outside as result 0; addi x17, x0, 0; addi x10, x0, 0; ecall; ecall
    "IMAGE": image(1, 0x00100893, 0xFFF00513, 0x73, 0x00000893, 0x00000513, 0x73, 0x73),
    # ebreak
    "TRAP": image(0, 0x00100073),
}


class Tried:
    """The program on one case, with the library before it."""

    def __init__(self, program, words, folder):
        self.program, self.words, self.folder = program, words, folder
        self.answer, self.calls = self.run({})

    def run(self, failures):
        count = os.path.join(self.folder, "count")
        environment = {"LD_PRELOAD": os.path.join(self.folder, "shim.so"), "COUNT_FILE": count, **failures}
        done = subprocess.run([self.program, *self.words], capture_output=True, env=environment, check=False)
        with open(count) as file:
            return (done.returncode, done.stdout), [int(number) for number in file.read().split()]

    def is_right(self, kind, answer):
        status, text = answer
        if kind == "read":
            return answer == (3, b"read fault\n")
        if kind == "write":
            return status == 10 and self.answer[1].startswith(text)
        lines = self.answer[1].splitlines(keepends=True)
        if self.words[0] != "make":
            lines = [line for line in lines if line.startswith(b"result ")]
        prefixes = [b"".join(lines[:count]) + b"no memory\n" for count in range(len(lines) + 1)]
        return answer == self.answer or status == 11 and (text == b"" or text in prefixes)

    def refuse(self, kind):
        """The numbers of calls that were refused, and the answers that aren't right."""
        calls, half = self.calls[KINDS.index(kind)], MOST // 2
        numbers = [*range(1, calls + 1)]
        if calls > MOST:
            numbers = [*range(1, half + 1), *(half + (calls - half) * turn // half for turn in range(1, half + 1))]
        answers = [(number, self.run({"REFUSED_" + kind.upper(): str(number)})[0]) for number in numbers]
        return len(numbers), [(kind, number, answer) for number, answer in answers if not self.is_right(kind, answer)]

    def shorten(self):
        """The same for a few bytes a call."""
        few = [{"MOST_READ": "1"}, {"MOST_READ": "7"}, {"MOST_WRITE": "1"}, {"MOST_WRITE": "7", "MOST_READ": "3"}]
        answers = [(failures, self.run(failures)[0]) for failures in few]
        return len(few), [("short", failures, answer) for failures, answer in answers if answer != self.answer]


def byte_by_byte(program, folder):
    """A file that comes byte by byte, and a text that goes so: each call of them fails once, and the one behind the last doesn't matter."""
    with open(os.path.join(folder, "SUM"), "w") as file:
        file.write(SUM)
    tried = Tried(program, ["tl0", os.path.join(folder, "SUM"), "--args=2,3"], folder)
    status, text = tried.answer
    wrong = [("sum", tried.answer)] if (status, len(text)) != (0, 50) else []
    for number in range(1, len(text) + 2):
        answer = tried.run({"MOST_WRITE": "1", "REFUSED_WRITE": str(number)})[0]
        if answer != ((10, text[: number - 1]) if number <= len(text) else (0, text)):
            wrong.append(("write", number, answer))
    for number in range(1, len(SUM) + 3):
        answer = tried.run({"MOST_READ": "1", "REFUSED_READ": str(number)})[0]
        if answer != ((3, b"read fault\n") if number <= len(SUM) + 1 else (0, text)):
            wrong.append(("read", number, answer))
    return len(text) + len(SUM) + 3, wrong


def words_of(case, folder):
    words = [case[0]]
    for word in case[1:]:
        option, equals, value = word.rpartition("=")
        place = os.path.join(TOP if value.startswith("examples/") else folder, value)
        words.append(option + equals + place if value in FILES or value == "GONE" or value.startswith("examples/") else word)
    return words


def main():
    program = os.path.abspath(sys.argv[1])
    compiler = shutil.which("cc") or shutil.which("gcc") or shutil.which("clang")
    if not compiler:
        print("no C compiler is installed: nothing is tried")
        return 0
    passed = failed = 0
    with tempfile.TemporaryDirectory() as folder:
        library = os.path.join(folder, "shim.so")
        if subprocess.run([compiler, "-shared", "-fPIC", "-O1", "-x", "c", "-", "-o", library], input=SHIM.encode(), check=False).returncode:
            print("the library before the C library can't be built here: nothing is tried")
            return 0
        for name, text in FILES.items():
            with open(os.path.join(folder, name), "wb") as file:
                file.write(text if isinstance(text, bytes) else text.encode())
        for case in CASES:
            tried = Tried(program, words_of(case, folder), folder)
            done = [*(tried.refuse(kind) for kind in KINDS), tried.shorten()]
            wrong = [row for _, rows in done for row in rows]
            counts = ", ".join(f"{calls} {kind}s" for calls, kind in zip(tried.calls, KINDS))
            print(f"{' '.join(case)}: {counts}; {sum(count for count, _ in done)} failures tried, {len(wrong)} wrong", flush=True)
            for row in wrong[:9]:
                print(" ", row)
            passed += sum(count for count, _ in done) - len(wrong)
            failed += len(wrong)
        count, wrong = byte_by_byte(program, folder)
        print(f"byte by byte: {count} failures tried, {len(wrong)} wrong", *wrong[:9], sep="\n  ")
        passed, failed = passed + count - len(wrong), failed + len(wrong)
    print(f"{passed} passed, {failed} failed")
    return 1 if failed else 0


sys.exit(main())
