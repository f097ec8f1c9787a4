#!/usr/bin/env python3
"""Cuts the blocks of the example graphs by the definition, and writes them as cases of the mode `parts`.

usage: partition_cases.py > tests/cases/partitions.json

A plain and slow program: it tests each pair of classes anew, by walks. It reads the examples, which are accepted, and
takes nothing from the program that it tests.
"""

import glob
import json
import os

EXAMPLES = os.path.join(os.path.dirname(os.path.dirname(os.path.abspath(__file__))), "examples")

VALUES = "param const seq ret alloc fetch merge in".split()
OPERATORS = "add sub mul div divu rem remu and or xor sll srl sra slt sltu eq".split()
INLETS = "param ret merge in".split()
OUTLETS = "arg result store cond switch out".split()
SPLIT = "call alloc fetch".split()


def codes_of(text):
    """The codes of a text: name, nodes as (name, verb, words), and for each block its nodes, in order."""
    codes = []
    for line in text.split("\n")[1:]:
        words = line.split("#")[0].split()
        if not words or words[0] == "dg":
            continue
        if words[0] == "code":
            nodes, blocks, stack = [], [[]], [0]
            codes.append((words[1], nodes, blocks))
        elif words[0] == "else":
            blocks.append([])
            stack[-1] = len(blocks) - 1
        elif words[0] == "end":
            stack.pop()
        else:
            name = words[0].split(":")[0] if words[1:2] == ["="] else None
            words = words[2:] if name else words
            blocks[stack[-1]].append(len(nodes))
            nodes.append((name, words[0], words[1:]))
            if words[0] == "cond":
                blocks.append([])
                stack.append(len(blocks) - 1)
    return codes


def operands_of(nodes, node):
    """The nodes whose values a node takes."""
    by_name = {name: number for number, (name, _, _) in enumerate(nodes) if name}
    _, verb, words = node
    if verb in OPERATORS or verb in ("seq", "alloc", "fetch", "store", "cond"):
        return [by_name[word] for word in words]
    if verb == "arg":
        return [by_name[words[2]], by_name[words[0]]]
    if verb in ("result", "out"):
        return [by_name[words[1]]]
    if verb == "switch":
        cond = nodes[by_name[words[0]]]
        return [by_name[cond[2][0]], by_name[words[2]]]
    return []


def block_graph(nodes, block):
    """Vertices as (node, half), inlets, outlets and edges of a block."""
    vertices = []
    for number in block:
        verb = nodes[number][1]
        vertices += [(number, "a"), (number, "b")] if verb in SPLIT else [(number, "")]
    giver = {}
    for place, (number, half) in enumerate(vertices):
        if half != "a":
            giver[number] = place
    edges = set()
    inlets, outlets = [], []
    for place, (number, half) in enumerate(vertices):
        verb = nodes[number][1]
        if half == "b" or verb in INLETS:
            inlets.append(place)
        if half == "a" or verb in OUTLETS:
            outlets.append(place)
        if half != "b":
            edges |= {(giver[operand], place) for operand in operands_of(nodes, nodes[number])}
    return vertices, inlets, outlets, edges


def reached(count, edges):
    """For each place the places that walks of edges lead to, itself included."""
    after = {place: {two for one, two in edges if one == place} for place in range(count)}
    result = []
    for place in range(count):
        seen, rest = {place}, [place]
        while rest:
            for other in after[rest.pop()] - seen:
                seen.add(other)
                rest.append(other)
        result.append(seen)
    return result


def is_valid(classes, inlets, outlets, edges, reach):
    where = {place: number for number, one in enumerate(classes) for place in one}
    between = {(where[one], where[two]) for one, two in edges if where[one] != where[two]}
    ways = reached(len(classes), between)
    if any(one in ways[two] for one, two in between):
        return False
    return all((where[outlet] in ways[where[inlet]]) == (outlet in reach[inlet]) for outlet in outlets for inlet in inlets)


def partition(vertices, inlets, outlets, edges):
    reach = reached(len(vertices), edges)
    classes = [[place] for place in range(len(vertices))]
    while True:
        pairs = [(one, two) for one in range(len(classes)) for two in range(one + 1, len(classes))]
        for one, two in pairs:
            joined = [sorted(group + classes[two]) if number == one else group for number, group in enumerate(classes) if number != two]
            if is_valid(joined, inlets, outlets, edges, reach):
                classes = joined
                break
        else:
            return classes


def parts_of(text):
    lines = []
    for number, (name, nodes, blocks) in enumerate(codes_of(text)):
        lines.append(f"code {number} {name}")
        for place, block in enumerate(blocks):
            vertices, inlets, outlets, edges = block_graph(nodes, block)
            lines.append(f"block {place}")
            for group in partition(vertices, inlets, outlets, edges):
                lines.append("thread " + " ".join(f"{vertices[vertex][0]}{vertices[vertex][1]}" for vertex in group))
    return "\n".join(lines) + "\n"


def all_apart():
    """A block of 128 vertices, each of which is a class of its own: 64 params and 64 stores, no two of which take the same three."""
    lines = ["dg 1", "code main", "end", "code each"]
    lines += [f"a{place}:1 = param {place}" for place in range(32)]
    lines += [f"w{place} = param {place + 32}" for place in range(32)]
    for first, second in ((0, 1), (5, 9)):
        lines += [f"store a{place} w{(place + first) % 32} w{(place + second) % 32}" for place in range(32)]
    return "\n".join(lines + ["end"]) + "\n"


def main():
    cases = []
    for path in sorted(glob.glob(os.path.join(EXAMPLES, "*.dg"))):
        with open(path) as file:
            text = file.read()
        name = os.path.basename(path)
        cases.append({"says": f"the classes of {name}", "words": ["parts", "f"], "files": {"f": {"example": name}}, "stdout": parts_of(text), "status": 0})
    text = all_apart()
    cases.append({"says": "128 classes of one vertex each", "words": ["parts", "f"], "files": {"f": text}, "stdout": parts_of(text), "status": 0})
    print(json.dumps(cases, indent=1))


main()
