"""Texts of graphs, made for measurements and for the rows of RESULTS.md."""

import random

OPERATORS = "add sub mul div divu rem remu and or xor sll srl sra slt sltu eq".split()


def code_of(name, conds, nodes):
    """A code with that many conds, each branch of which is a chain of that many nodes."""
    lines = [f"code {name}", "p = const 1"]
    number = 0
    for cond in range(conds):
        lines.append(f"c{cond} = cond p")
        for branch in range(2):
            last = f"n{number}"
            lines.append(f"{last} = const {number}")
            for step in range(nodes - 1):
                number += 1
                lines.append(f"n{number} = {OPERATORS[step % 16]} {last} {last}")
                last = f"n{number}"
            number += 1
            lines.append("else" if branch == 0 else "end")
    lines.append("end")
    return lines


def accepted(size):
    """An accepted text of about that many bytes and no more: codes of seven conds with branches of 64 nodes."""
    lines = ["dg 1", "code main", "end"]
    used = sum(len(line) + 1 for line in lines)
    number = 0
    while True:
        code = code_of(f"k{number}", 7, 64)
        length = sum(len(line) + 1 for line in code)
        if used + length > size:
            return "\n".join(lines) + "\n"
        lines += code
        used += length
        number += 1


def refused(kind, size):
    """A text of about that many bytes with one fault."""
    if kind == "one name repeated":
        return ("dg 1\ncode main\n" + "a = const 1\n" * (size // 12))[:size]
    if kind == "a fault on the last line":
        text = accepted(size - 20)
        return text + "x = foo\n"
    if kind == "an unknown name on the last line":
        text = accepted(size - 40)
        return text + "code last\nresult 0 y\nend\n"
    if kind == "256 codes, and one":
        names = [f"code {'k' * 20}{n}\nend\n" for n in range(256)]
        filler = "# " + "x" * 4000 + "\n"
        text = "dg 1\n" + "".join(names)
        return text + filler * ((size - len(text) - 20) // len(filler)) + "code last\nend\n"
    if kind == "a deepest nesting":
        head = ["dg 1", "code main", "p0 = const 1"]
        for depth in range(17):
            head += [f"c{depth} = cond p{depth}", f"p{depth + 1} = const 1"]
        text = "\n".join(head) + "\n"
        return "\n" * (size - len(text)) + text
    if kind == "one line":
        return "dg 1\ncode main\n" + "a " * ((size - 16) // 2) + "\n"
    if kind == "blank lines":
        return "\n" * (size - 3) + "dg\n"
    raise ValueError(kind)


REFUSED = [
    "one name repeated",
    "a fault on the last line",
    "an unknown name on the last line",
    "256 codes, and one",
    "a deepest nesting",
    "one line",
    "blank lines",
]


def block(kind, vertices):
    """A text whose `main` is one block of that many vertices."""
    lines = ["dg 1", "code main"]
    if kind == "a chain":
        lines.append("n0 = const 1")
        lines += [f"n{n} = add n{n - 1} n{n - 1}" for n in range(1, vertices)]
    elif kind == "params and results, each its own":
        pairs = vertices // 2
        lines += [f"a{n} = param {n}" for n in range(pairs)]
        lines += [f"result {n} a{n}" for n in range(pairs)]
    elif kind == "sums of neighbours":
        third = vertices // 3
        lines += [f"a{n} = param {n}" for n in range(third)]
        lines += [f"s{n} = add a{n} a{(n + 1) % third}" for n in range(third)]
        lines += [f"result {n} s{n}" for n in range(third)]
        lines += [f"k{n} = const {n}" for n in range(vertices - 3 * third)]
    elif kind == "a fan":
        places = (vertices - 2) // 2
        lines += ["x = param 0", "k = const 1"]
        lines += [f"v{n} = add x k" for n in range(places)]
        lines += [f"result {n} v{n}" for n in range(places)]
    elif kind == "random":
        chance = random.Random(vertices)
        params = vertices // 8
        lines += [f"n{n} = param {n}" for n in range(params)]
        inner = vertices - 2 * params
        lines += [f"n{n} = {chance.choice(OPERATORS)} n{chance.randrange(n)} n{chance.randrange(n)}" for n in range(params, params + inner)]
        lines += [f"result {n} n{chance.randrange(params + inner)}" for n in range(params)]
    else:
        raise ValueError(kind)
    return "\n".join([*lines, "end"]) + "\n"


BLOCKS = ["a chain", "params and results, each its own", "sums of neighbours", "a fan", "random"]


def codes(count, vertices):
    """An empty `main`, and so many codes of so many vertices at random: params, operators on late values, results."""
    lines = ["dg 1", "code main", "end"]
    for number in range(count):
        draw = random.Random(number)
        places = min(max(2, vertices // 8), 64)
        values = [f"p{place}" for place in range(places)]
        lines.append(f"code k{number}")
        lines += [f"{value} = param {place}" for place, value in enumerate(values)]
        for index in range(vertices - 2 * places):
            first, second = draw.choice(values[-24:]), draw.choice(values[-24:])
            values.append(f"v{index}")
            lines.append(f"v{index} = {draw.choice(OPERATORS)} {first} {second}")
        lines += [f"result {place} {draw.choice(values[-(vertices // 2):])}" for place in range(places)]
        lines.append("end")
    return "\n".join(lines) + "\n"


def ladder(count):
    """A `main` that calls the first of so many codes, each of which adds its number a hundred times and calls the next."""
    lines = ["dg 1", "code main", "x = param 0", "f = call s1", "arg f 0 x", "r = ret f 0", "result 0 r", "end"]
    for number in range(1, count + 1):
        lines += [f"code s{number}", "x = param 0", f"k = const {number}", "a1 = add x k"]
        lines += [f"a{place} = add a{place - 1} k" for place in range(2, 101)]
        if number < count:
            lines += [f"f = call s{number + 1}", "arg f 0 a100", "r = ret f 0", "result 0 r", "end"]
        else:
            lines += ["result 0 a100", "end"]
    return "\n".join(lines) + "\n"


def deep(conds, adds):
    """A recursion as deep as its argument, of a code with so many further conds of so many additions each: 15 nodes, and 7 and the additions for each cond."""
    lines = ["dg 1", "code main", "n = param 0", "f = call deep", "arg f 0 n", "r = ret f 0", "result 0 r", "end"]
    lines += ["code deep", "n = param 0", "c = cond n", "m = in 0", "one = const 1", "k = sub m one", "f = call deep", "arg f 0 k", "r = ret f 0", "out 0 r"]
    lines += ["else", "z = in 0", "out 0 z", "end", "switch c 0 n", "v = merge c 0", "zero = const 0"]
    for number in range(conds):
        lines += [f"d{number} = cond zero", f"a{number} = in 0"]
        lines += [f"b{number}_{k} = add a{number} a{number}" for k in range(adds)]
        lines += [f"out 0 a{number}", "else", f"e{number} = in 0", f"out 0 e{number}", "end"]
        lines += [f"switch d{number} 0 n", f"w{number} = merge d{number} 0"]
    lines += ["result 0 v", "end"]
    return "\n".join(lines) + "\n"


def assembly(size):
    """An assembly text of about that many bytes: instructions of every form, and a label for every eighth."""
    lines = [".image 1", ".stride 32", ".params 0", ".results 0"]
    used = sum(len(line) + 1 for line in lines)
    number = 0
    while used < size - 200:
        group = [
            f"l{number}:",
            "addi x5, x6, -2048",
            "mul x7, x5, x6",
            "lw x28, 16(x8)",
            "sw x28, 2044(x8)",
            f"bne x5, x0, l{number}",
            "lui x31, 1048575",
            "srai x5, x5, 31",
            f".word {number}",
        ]
        lines += group
        used += sum(len(line) + 1 for line in group)
        number += 1
    return "\n".join(lines) + "\n"


def large(size):
    """Large inputs of the modes that may read 64 MB, each with its mode and what it is: answered, or refused at its very end."""
    head = "tl0 2\ncodes 1 main 0\ncode 0 0 2\nthread 1\n"
    forks = "fork 0\n" * ((size - len(head) - 30) // 7)
    yield "exec-tl0", "a text of thread code with a fault on its last line", head + forks + "stop\nend\nend\n"
    yield "exec-tl0", "a text of thread code in one line", "tl0 2\ncodes 1 main 0\n" + "code " * (size // 5 - 10)
    asm = ".image 1\n.stride 32\n.params 0\n.results 0\n"
    rows = "addi x1, x1, 1\n" * ((size - len(asm) - 30) // 15)
    yield "assemble", "an assembly text with a fault on its last line", asm + rows + "addi x1, x0\n"
    yield "assemble", "an assembly text", asm + rows
    yield "assemble", "an assembly text of labels", asm + "".join(f"l{place}:\n" for place in range((size - len(asm) - 20) // 10)) + "ebreak\n"
    yield "assemble", "an assembly text of commas in one line", asm + "addi " + "," * (size - len(asm) - 10) + "\n"
    count = (size - 24) // 4 - 8
    words = b"\x13\x00\x00\x00" * (count - 1) + b"\x73\x00\x10\x00"
    fields = (0x494D4154, 1, count, 32, 0, 0)
    image = b"".join(field.to_bytes(4, "little") for field in fields) + words
    yield "exec-rv32", "an image", image
    yield "exec-rv32", "an image with a byte too many", image + b"\0"
