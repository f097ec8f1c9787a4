"""Time and memory of the program, as the work doubles.

usage: measure.py PROGRAM [PART ..]

The parts of the program `tam` are `runs`, `words`, `texts`, `hostile`, `blocks`, `threads`, `made`, `assembly` and `large`; without one all of these are
measured. The part `loops` is measured on the program of that name (crates/loops). Each line of output is a row of RESULTS.md. A time is the least of
several runs, memory the least address space within which the run still has its status and output.
"""

import os
import subprocess
import sys
import tempfile
import time

import texts

EXAMPLES = os.path.join(os.path.dirname(os.path.dirname(os.path.abspath(__file__))), "examples")

FEWEST_RUNS = 5
MOST_RUNS = 40
SECONDS = 4.0


def run_once(program, words, limit="unlimited"):
    """Seconds, exit status and output of one run within so many KiB of address space."""
    start = time.perf_counter()
    script = f'ulimit -v {limit}; exec "$@"'
    done = subprocess.run(["sh", "-c", script, "sh", program, *words], capture_output=True, check=False)
    return time.perf_counter() - start, (done.returncode, done.stdout)


def runs_of(program, words):
    """Several runs: at least five, at most forty, and no more once they took four seconds."""
    runs = []
    while len(runs) < FEWEST_RUNS or (len(runs) < MOST_RUNS and sum(run[0] for run in runs) < SECONDS):
        runs.append(run_once(program, words))
    return runs


def least_memory(program, words, end):
    """The least address space in KiB within which the run still has that status and output."""
    low, high = 0, 1 << 22
    while high - low > max(16, low // 64):
        middle = (low + high) // 2
        if run_once(program, words, middle)[1] == end:
            high = middle
        else:
            low = middle
    return high


def events_of(output):
    """The events that a run's text counts, if it counts any."""
    for line in output.decode("latin1").split("\n"):
        if line.startswith("events "):
            return int(line.split()[1])
    return None


def measure(program, mode, label, text, words):
    """One row: what, bytes, status, events, milliseconds, events a second, KiB."""
    with tempfile.NamedTemporaryFile("wb", suffix=".dg", delete=False) as file:
        file.write(text if isinstance(text, bytes) else text.encode())
    words = [mode, file.name, *words]
    runs = runs_of(program, words)
    end = runs[0][1]
    memory = least_memory(program, words, end)
    os.unlink(file.name)
    seconds = min(run[0] for run in runs)
    events = events_of(end[1]) if mode in ("graph", "tl0", "rv32") else None
    rate = f"{events / seconds:.0f}" if events else ""
    print(f"| {mode}, {label} | {len(text)} | {end[0]} | {events or ''} | {seconds * 1000:.1f} | {rate} | {memory} |", flush=True)


def example(name):
    with open(os.path.join(EXAMPLES, name)) as file:
        return file.read()


def measure_runs(program):
    room = ["--budget=4294967295", "--frames=16384", "--cells=4194304"]
    for mode in ("graph", "tl0", "rv32"):
        for number in (15, 30, 60):
            measure(program, mode, f"wavefront of {number} by {number}", example("wavefront.dg"), [f"--args={number}", *room])
        for number in (14, 16, 18):
            measure(program, mode, f"fib of {number}", example("fib.dg"), [f"--args={number}", *room])
        for count in (50, 100, 200):
            measure(program, mode, f"a ladder of {count}", texts.ladder(count), ["--args=0", *room])
    for depth in (4_096, 8_192, 16_384):
        measure(program, "tl0", f"{depth} frames of a code of 1,023 nodes", texts.deep(8, 119), [f"--args={depth - 2}", *room])


def measure_words(program):
    for count in (1_250, 2_500, 5_000, 10_000):
        measure(program, "graph", f"{count} arguments", example("add.dg"), ["--args=" + ",".join(["-214748364"] * count)])
    for count in (16, 32, 64):
        lines = ["dg 1", "code main", "a = param 0", *[f"result {place} a" for place in range(count)], "end"]
        measure(program, "graph", f"{count} results", "\n".join(lines) + "\n", ["--args=-2147483648"])


def measure_texts(program):
    for size in (1 << 17, 1 << 18, 1 << 19, 1 << 20):
        for mode in ("check", "emit-dg"):
            measure(program, mode, f"accepted, {size // 1024} kB", texts.accepted(size), [])


def measure_hostile(program):
    for kind in texts.REFUSED:
        for size in (1 << 19, (1 << 20) - 64):
            measure(program, "check", f"{kind}, {size // 1024} kB", texts.refused(kind, size), [])


def measure_blocks(program):
    for kind in texts.BLOCKS:
        for vertices in (32, 64, 128):
            measure(program, "parts", f"{kind}, {vertices} vertices", texts.block(kind, vertices), [])
    for count in (30, 60, 120, 240):
        for mode in ("sets", "parts"):
            measure(program, mode, f"{count} codes of 128 vertices", texts.codes(count, 128), [])
    for mode in ("sets", "parts"):
        measure(program, mode, "a ladder of 200", texts.ladder(200), [])
        measure(program, mode, "a wave", example("wavefront.dg"), [])


def measure_threads(program):
    for mode in ("emit-tl0", "emit-image", "emit-asm"):
        for count in (30, 60, 120, 240):
            measure(program, mode, f"{count} codes of 128 vertices", texts.codes(count, 128), [])
        measure(program, mode, "a ladder of 200", texts.ladder(200), [])


def measure_made(program):
    """Rows with the shape in the place of a text."""
    for shape, counts in (("ladder", (50, 100, 200)), ("wave", (15, 30, 60))):
        for count in counts:
            words = ["make", shape, str(count)]
            runs = runs_of(program, words)
            end = runs[0][1]
            memory = least_memory(program, words, end)
            seconds = min(run[0] for run in runs)
            events = events_of(end[1])
            print(f"| make, {shape} {count} | | {end[0]} | {events} | {seconds * 1000:.1f} | {events / seconds:.0f} | {memory} |", flush=True)


def measure_assembly(program):
    for size in (1 << 20, 1 << 21, 1 << 22):
        measure(program, "assemble", f"{size >> 20} MB", texts.assembly(size), [])


def measure_large(program):
    """Inputs as large as they may be, that are refused at their end or answered: thread code, assembly and images of up to 64 MB."""
    for size in (1 << 24, 1 << 25, 1 << 26):
        for mode, label, content in texts.large(size):
            measure(program, mode, f"{label}, {size >> 20} MB", content, [])


def measure_loops(program):
    """Rows with the times of a loop in the place of events."""
    for loop in ("count", "copy", "words"):
        for times in (1 << 24, 1 << 25, 1 << 26):
            words = [loop, str(times)]
            runs = runs_of(program, words)
            end = runs[0][1]
            memory = least_memory(program, words, end)
            seconds = min(run[0] for run in runs)
            print(f"| loops, {loop} | | {end[0]} | {times} | {seconds * 1000:.1f} | {times / seconds:.0f} | {memory} |", flush=True)
    # blocks at random, cut into classes
    for vertices in (64, 128, 256, 512):
        words = ["block", "400", str(vertices)]
        runs = runs_of(program, words)
        end = runs[0][1]
        memory = least_memory(program, words, end)
        seconds = min(run[0] for run in runs)
        print(f"| loops, block of {vertices} vertices | | {end[0]} | 400 | {seconds * 1000:.1f} | {400 / seconds:.0f} | {memory} |", flush=True)
    # texts of thread code of 16, 32 and 64 MB
    for times in (2_396_740, 4_793_480, 9_586_960):
        words = ["forks", str(times)]
        runs = runs_of(program, words)
        end = runs[0][1]
        memory = least_memory(program, words, end)
        seconds = min(run[0] for run in runs)
        print(f"| loops, forks | {7 * times + 50} | {end[0]} | {times} | {seconds * 1000:.1f} | {times / seconds:.0f} | {memory} |", flush=True)


PARTS = {
    "assembly": measure_assembly,
    "large": measure_large,
    "runs": measure_runs,
    "words": measure_words,
    "texts": measure_texts,
    "hostile": measure_hostile,
    "blocks": measure_blocks,
    "threads": measure_threads,
    "made": measure_made,
    "loops": measure_loops,
}

OF_TAM = [part for part in PARTS if part != "loops"]


def main():
    program = os.path.abspath(sys.argv[1])
    for name in sys.argv[2:] or OF_TAM:
        PARTS[name](program)


main()
