#!/usr/bin/env python3
"""Runs random graphs at every level under random orders, and compares the quiet runs with a plain evaluator of its own.

usage: random_runs.py PROGRAM [--graphs N] [--seed N] [--levels graph,tl0,rv32] [--keep FOLDER]

Each graph is made at random from a seed: codes that call later codes or themselves with a counter, conditionals, arrays, and now and then a result of a call
that feeds an argument of the same call. The evaluator below knows the rules alone: it fires what may fire until nothing may, in no order of any
machine. For each level and order the run must be quiet, with exactly the results that the evaluator finds and `missing` for every other place, and with as many
activations and cells; what `rv32` writes must be what `tl0` writes with one line more, `instructions N`; `exec-tl0` of what `emit-tl0` writes must answer
what `tl0` does, and `exec-rv32` of what `emit-image` writes what `rv32` does; and `assemble` must make that same file of what `emit-asm` writes. Prints a
line for each difference, and last 'N passed, M failed'.
"""
import argparse
import os
import random
import subprocess
import sys
import tempfile

WORD = 1 << 32
OPERATORS = {
    "add": lambda a, b: a + b, "sub": lambda a, b: a - b, "mul": lambda a, b: a * b,
    "and": lambda a, b: a & b, "or": lambda a, b: a | b, "xor": lambda a, b: a ^ b,
    "sltu": lambda a, b: int(a < b), "eq": lambda a, b: int(a == b),
    "remu": lambda a, b: a % b if b else a,
}


# ---- making a graph

def code_name(index):
    return "main" if index == 0 else f"c{index}"


class Maker:
    """One code of a graph, as lines."""

    def __init__(self, rng, index, signatures):
        self.rng, self.index, self.signatures = rng, index, signatures
        self.lines, self.count = [], 0

    def fresh(self, letter):
        self.count += 1
        return f"{letter}{self.count}"

    def line(self, text):
        self.lines.append(text)

    def value(self, words):
        """A word for use: one of those that there are, or a new constant."""
        if words and self.rng.random() < 0.85:
            return self.rng.choice(words)
        name = self.fresh("k")
        self.line(f"{name} = const {self.rng.choice([0, 1, 2, 3, 5, 7, 4294967295])}")
        words.append(name)
        return name

    def operate(self, words):
        name = self.fresh("v")
        first, second = self.value(words), self.value(words)
        self.line(f"{name} = {self.rng.choice(sorted(OPERATORS))} {first} {second}")
        words.append(name)

    def sequence(self, words):
        name = self.fresh("q")
        first, second = self.value(words), self.value(words)
        self.line(f"{name} = seq {first} {second}")
        words.append(name)

    def call(self, words, callee):
        """A call of a later code. Now and then an argument waits for a result of the same call."""
        params, results = self.signatures[callee]
        name = self.fresh("f")
        outs = [self.fresh("r") for _ in range(results)]
        args = [self.value(words) for _ in range(params)]
        if outs and args and self.rng.random() < 0.35:
            args[self.rng.randrange(params)] = self.rng.choice(outs)
        self.line(f"{name} = call c{callee}")
        for place, arg in enumerate(args):
            self.line(f"arg {name} {place} {arg}")
        for place, out in enumerate(outs):
            self.line(f"{out} = ret {name} {place}")
        words.extend(outs)

    def array(self, words):
        """An array of a few cells; each is stored into once at most, and fetched now and then, before or after."""
        name, size = self.fresh("A"), self.rng.randint(1, 3)
        length = self.fresh("n")
        self.line(f"{length} = const {size}")
        places = []
        for place in range(size):
            places.append(self.fresh("i"))
            self.line(f"{places[place]} = const {place}")
        self.line(f"{name}:1 = alloc {length}")
        fetched = []
        for place in range(size):
            if self.rng.random() < 0.6:
                fetched.append(self.fresh("g"))
                self.line(f"{fetched[-1]} = fetch {name} {places[place]}")
        for place in range(size):
            if self.rng.random() < 0.85:
                self.line(f"store {name} {places[place]} {self.value(words)}")
        words.extend(fetched)

    def branch(self, words, depth):
        """A conditional with a few places in and out."""
        cond, test = self.fresh("c"), self.value(words)
        ins = [self.value(words) for _ in range(self.rng.randint(0, 3))]
        outs = self.rng.randint(0, 2)
        self.line(f"{cond} = cond {test}")
        for part in range(2):
            inner = []
            for place in range(len(ins)):
                name = self.fresh("x")
                self.line(f"{name} = in {place}")
                inner.append(name)
            self.body(inner, self.rng.randint(0, 2), depth + 1)
            for place in range(outs):
                self.line(f"out {place} {self.value(inner)}")
            self.line("else" if part == 0 else "end")
        for place, word in enumerate(ins):
            self.line(f"switch {cond} {place} {word}")
        for place in range(outs):
            name = self.fresh("m")
            self.line(f"{name} = merge {cond} {place}")
            words.append(name)

    def body(self, words, steps, depth):
        for _ in range(steps):
            kind = self.rng.random()
            later = range(self.index + 1, len(self.signatures))
            if kind < 0.4:
                self.operate(words)
            elif kind < 0.5:
                self.sequence(words)
            elif kind < 0.7 and later:
                self.call(words, self.rng.choice(later))
            elif kind < 0.85 and depth < 3:
                self.branch(words, depth)
            else:
                self.array(words)

    def recursion(self, words, params, results):
        """The code calls itself with its first param one less, until that is 0."""
        cond = self.fresh("c")
        self.line(f"{cond} = cond p0")
        inner = [f"y{place}" for place in range(params)]
        for place in range(params):
            self.line(f"{inner[place]} = in {place}")
        one, less, name = self.fresh("k"), self.fresh("v"), self.fresh("f")
        self.line(f"{one} = const 1")
        self.line(f"{less} = sub y0 {one}")
        self.line(f"{name} = call {code_name(self.index)}")
        self.line(f"arg {name} 0 {less}")
        for place in range(1, params):
            self.line(f"arg {name} {place} {self.rng.choice(inner)}")
        outs = [self.fresh("r") for _ in range(results)]
        for place in range(results):
            self.line(f"{outs[place]} = ret {name} {place}")
        pool = inner + outs
        for place in range(results):
            total = self.fresh("v")
            self.line(f"{total} = add {self.rng.choice(pool)} {outs[place]}")
            self.line(f"out {place} {total}")
        self.line("else")
        for place in range(params):
            self.line(f"z{place} = in {place}")
        for place in range(results):
            self.line(f"out {place} z{self.rng.randrange(params)}")
        self.line("end")
        for place in range(params):
            self.line(f"switch {cond} {place} p{place}")
        for place in range(results):
            out = self.fresh("m")
            self.line(f"{out} = merge {cond} {place}")
            words.append(out)

    def code(self):
        params, results = self.signatures[self.index]
        self.line(f"code {code_name(self.index)}")
        words = [f"p{place}" for place in range(params)]
        for word in words:
            self.line(f"{word} = param {word[1:]}")
        if self.index == len(self.signatures) - 1 and params:
            self.recursion(words, params, results)
        self.body(words, self.rng.randint(1, 4), 0)
        for place in range(results):
            self.line(f"result {place} {self.value(words)}")
        self.line("end")
        return self.lines


def make_graph(rng):
    codes = rng.randint(1, 4)
    signatures = [(rng.randint(0, 3), rng.randint(1, 3)) for _ in range(codes)]
    lines = ["dg 1"]
    for index in range(codes):
        lines += Maker(rng, index, signatures).code()
    return "\n".join(lines) + "\n", signatures[0]


# ---- reading and running it, by the rules alone

class Node:
    def __init__(self, name, verb, words, block):
        self.name, self.verb, self.words, self.block = name, verb, words, block


def read_graph(text):
    """The codes of a text by name: nodes, and for each block the branch (cond, which) that it is."""
    codes, nodes, stack, blocks = {}, None, [], None
    for line in text.split("\n")[1:]:
        words = line.split()
        if not words:
            continue
        if words[0] == "code":
            nodes, blocks, stack = [], [None], [0]
            codes[words[1]] = (nodes, blocks)
        elif words[0] == "else":
            blocks.append((blocks[stack[-1]][0], 1))
            stack[-1] = len(blocks) - 1
        elif words[0] == "end":
            stack.pop()
        else:
            name = words[0].split(":")[0] if words[1:2] == ["="] else None
            words = words[2:] if name else words
            nodes.append(Node(name, words[0], words[1:], stack[-1]))
            if words[0] == "cond":
                blocks.append((len(nodes) - 1, 0))
                stack.append(len(blocks) - 1)
    return codes


class Run:
    """All that follows from a graph and its arguments, by the rules; nothing is taken back and nothing is ordered."""

    def __init__(self, codes, args, most=4000):
        self.codes, self.most = codes, most
        self.activations, self.arrays, self.results = [], [], {}
        self.work = []
        self.begin("main", None, None)
        for place, word in enumerate(args):
            self.arrive(0, "param", None, place, word)
        while self.work:
            self.fire(*self.work.pop())

    def begin(self, code, caller, call):
        if len(self.activations) > self.most:
            raise OverflowError
        number = len(self.activations)
        self.activations.append({"code": code, "caller": caller, "call": call, "values": {}, "early": {}, "fired": set(), "entered": set(),
                                 "names": {node.name: place for place, node in enumerate(self.codes[code][0]) if node.name}})
        self.enter(number, 0)
        return number

    def enter(self, number, block):
        activation = self.activations[number]
        activation["entered"].add(block)
        for place, node in enumerate(self.codes[activation["code"]][0]):
            if node.block == block:
                self.try_node(number, place)

    def try_all(self, number):
        activation = self.activations[number]
        for place in range(len(self.codes[activation["code"]][0])):
            self.try_node(number, place)

    def operands(self, activation, node):
        names, words = activation["names"], node.words
        if node.verb in OPERATORS or node.verb in ("seq", "fetch", "store", "alloc", "cond"):
            return [names[word] for word in words]
        if node.verb == "arg":
            return [names[words[2]], names[words[0]]]
        if node.verb in ("result", "out"):
            return [names[words[1]]]
        if node.verb == "switch":
            cond = self.codes[activation["code"]][0][names[words[0]]]
            return [names[words[2]], names[cond.words[0]]]
        return []

    def try_node(self, number, place):
        activation = self.activations[number]
        node = self.codes[activation["code"]][0][place]
        if place in activation["fired"] or node.block not in activation["entered"] or node.verb in ("param", "ret", "merge", "in"):
            return
        taken = [activation["values"].get(operand) for operand in self.operands(activation, node)]
        if all(word is not None for word in taken):
            activation["fired"].add(place)
            self.work.append((number, place, taken))

    def give(self, number, place, word):
        self.activations[number]["values"][place] = word
        self.try_all(number)

    def arrive(self, number, verb, of, place, word):
        """A word comes to the nodes of an interface place."""
        activation = self.activations[number]
        for at, node in enumerate(self.codes[activation["code"]][0]):
            if node.verb == verb and int(node.words[-1]) == place and (of is None or activation["names"][node.words[0]] == of):
                self.give(number, at, word)

    def come_in(self, number, cond, which, place, word):
        activation = self.activations[number]
        nodes, blocks = self.codes[activation["code"]]
        for at, node in enumerate(nodes):
            if node.verb == "in" and blocks[node.block] == (cond, which) and int(node.words[0]) == place:
                self.give(number, at, word)

    def fire(self, number, place, taken):
        activation = self.activations[number]
        nodes, blocks = self.codes[activation["code"]]
        node = nodes[place]
        if node.verb == "const":
            self.give(number, place, int(node.words[0]) % WORD)
        elif node.verb in OPERATORS:
            self.give(number, place, OPERATORS[node.verb](*taken) % WORD)
        elif node.verb == "seq":
            self.give(number, place, taken[0])
        elif node.verb == "call":
            self.give(number, place, ("frame", self.begin(node.words[0], number, place)))
        elif node.verb == "arg":
            self.arrive(taken[1][1], "param", None, int(node.words[1]), taken[0])
        elif node.verb == "result":
            if activation["caller"] is None:
                self.results[int(node.words[0])] = taken[0]
            else:
                self.arrive(activation["caller"], "ret", activation["call"], int(node.words[0]), taken[0])
        elif node.verb == "alloc":
            self.arrays.append([[None, []] for _ in range(taken[0])])
            self.give(number, place, ("array", len(self.arrays) - 1))
        elif node.verb == "fetch":
            cell = self.arrays[taken[0][1]][taken[1]]
            cell[1].append((number, place))
            if cell[0] is not None:
                self.give(number, place, cell[0])
        elif node.verb == "store":
            cell = self.arrays[taken[0][1]][taken[1]]
            assert cell[0] is None
            cell[0] = taken[2]
            for reader in cell[1]:
                self.give(*reader, taken[2])
        elif node.verb == "cond":
            self.enter(number, next(b for b, of in enumerate(blocks) if of == (place, 0 if taken[0] else 1)))
        elif node.verb == "switch":
            self.come_in(number, activation["names"][node.words[0]], 0 if taken[1] else 1, int(node.words[1]), taken[0])
        elif node.verb == "out":
            self.arrive(number, "merge", blocks[node.block][0], int(node.words[0]), taken[0])


# ---- comparing

def signed(word):
    return word - WORD if word >= WORD // 2 else word


def expected(run, results):
    """The lines of a quiet run but for its events and instructions: results and missing ones, sorted, then the counts."""
    lines = [f"result {place} = {signed(word)}" for place, word in run.results.items()]
    lines += [f"missing {place}" for place in range(results) if place not in run.results]
    lines += ["quiet", f"activations {len(run.activations)}", f"cells {sum(map(len, run.arrays))}"]
    return sorted(lines)


def answer(program, *words):
    run = subprocess.run([program, *words], stdin=subprocess.DEVNULL, stdout=subprocess.PIPE, timeout=60)
    return run.returncode, run.stdout


def random_order(rng):
    return ",".join(rng.choice(["r", "r", str(rng.randint(0, 9))]) for _ in range(rng.randint(0, 400)))


# the mode that writes the code of each level, and the one that runs it
CODES = {"tl0": ("emit-tl0", "exec-tl0"), "rv32": ("emit-image", "exec-rv32")}


def keep(name, content):
    with open(name, "wb") as file:
        file.write(content)


class Graph:
    """A graph in a file, and what the program answers of it at some levels; `wrong` tells each difference."""

    def __init__(self, program, levels, folder, text):
        self.program, self.levels, self.wrong, self.tried = program, levels, [], 0
        self.graph, self.order, self.code = (os.path.join(folder, name) for name in ("graph.dg", "order", "code"))
        keep(self.graph, text.encode())

    def try_that(self, holds, what):
        self.tried += 1
        if not holds:
            self.wrong.append(what)

    def run(self, args, order, want):
        """Each level under an order, and the code that is written of it."""
        keep(self.order, order.encode())
        words, answers = [f"--args={','.join(map(str, args))}", f"--order-file={self.order}"], {}
        for level in sorted(self.levels):
            answers[level] = status, text = answer(self.program, level, self.graph, *words)
            lines = sorted(line for line in text.decode().splitlines() if not line.startswith(("events ", "instructions ")))
            right = lines == want and status == (4 if any(line.startswith("missing") for line in want) else 0)
            self.try_that(right, f"{level}: status {status}\n  want {want}\n  got  {lines}")
        for level in sorted(self.levels & CODES.keys()):
            emit, execute = CODES[level]
            keep(self.code, answer(self.program, emit, self.graph)[1])
            self.try_that(answer(self.program, execute, self.code, *words) == answers[level], f"{execute} differs from {level}")
        if self.levels >= CODES.keys():
            (status, text), (same, threads) = answers["rv32"], answers["tl0"]
            self.try_that(status == same and text.splitlines()[:-1] == threads.splitlines(), "rv32 differs from tl0")

    def assemble(self):
        """The assembly text of its machine code."""
        keep(self.code, answer(self.program, "emit-asm", self.graph)[1])
        self.try_that(answer(self.program, "assemble", self.code) == answer(self.program, "emit-image", self.graph), "assemble differs from emit-image")


def main():
    options = argparse.ArgumentParser()
    options.add_argument("program")
    options.add_argument("--graphs", type=int, default=40)
    options.add_argument("--seed", type=int, default=1)
    options.add_argument("--levels", default="graph,tl0,rv32")
    options.add_argument("--keep")
    options = options.parse_args()
    program, levels = os.path.abspath(options.program), set(options.levels.split(","))
    rng = random.Random(options.seed)
    passed = failed = 0
    with tempfile.TemporaryDirectory() as folder:
        for number in range(options.graphs):
            while True:
                text, (params, results) = make_graph(rng)
                args = [rng.choice([0, 1, 2, 3, 6]) for _ in range(params)]
                try:
                    want = expected(Run(read_graph(text), args), results)
                    break
                except OverflowError:
                    continue
            graph = Graph(program, levels, options.keep or folder, text)
            for turn in range(3):
                graph.run(args, random_order(rng) if turn else "", want)
            if "rv32" in levels:
                graph.assemble()
            passed, failed = passed + graph.tried - len(graph.wrong), failed + len(graph.wrong)
            for wrong in graph.wrong:
                print(f"graph {number} of seed {options.seed}: {wrong}")
            if graph.wrong and options.keep:
                return 1
    print(f"{passed} passed, {failed} failed")
    return 1 if failed or not passed else 0


if __name__ == "__main__":
    sys.exit(main())
