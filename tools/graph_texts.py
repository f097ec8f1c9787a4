"""Reads the texts of `emit-dg` and `parts` as codes with blocks, vertices, edges and links (docs/FORMATS.md, "Graph text", "Node lines", "Listings")."""

HALVED = ("call", "alloc", "fetch")
INLETS = ("param", "ret", "in", "merge")
OUTLETS = ("arg", "result", "store", "cond", "switch", "out")
WITHOUT_OPERANDS = ("param", "const", "call", "ret", "in", "merge")


class Vertex:
    """A vertex: its name as `parts` writes it, the text of its node, `inlet`, `outlet` or `inner`, and its thread by its number in all and in its code."""

    def __init__(self, name, text, role):
        self.name, self.text, self.role = name, text, role
        self.thread = self.thread_in_code = None
        self.above, self.below = [], []


class Node:
    """A line of a code: the vertex that takes its operands, and the one that gives its value."""

    def __init__(self, number, block, name, words, text):
        self.number, self.block, self.name, self.words = number, block, name, words
        self.kind = words[0]
        if self.kind in HALVED:
            self.takes = Vertex(f"{number}a", f"{text} (ask)", "outlet")
            self.gives = Vertex(f"{number}b", f"{text} (answer)", "inlet")
        else:
            role = "inlet" if self.kind in INLETS else "outlet" if self.kind in OUTLETS else "inner"
            self.takes = self.gives = Vertex(str(number), text, role)

    def vertices(self):
        return [self.takes] if self.takes is self.gives else [self.takes, self.gives]


class Block:
    def __init__(self, title):
        self.title = title
        self.vertices = []


class Code:
    def __init__(self, name):
        self.name = name
        self.blocks, self.nodes = [], []
        self.named = {}

    def open(self, *title):
        self.blocks.append(Block([f"block {len(self.blocks)}", *title]))
        return self.blocks[-1]

    def interface(self, kind, place, block=None):
        """The nodes of the kind with that place, in the block where one is named."""
        at = 2 if kind in ("arg", "ret", "switch", "merge") else 1
        return [node for node in self.nodes if node.kind == kind and node.words[at] == place and block in (None, node.block)]


def read_graph(text):
    """The codes of a canonical text, each block with its vertices and their edges."""
    codes, opened = [], []
    for line in text.splitlines()[1:]:
        tokens = line.split()
        if tokens[0] == "code":
            code = Code(tokens[1])
            codes.append(code)
            opened = [(code.open(), None)]
        elif tokens[0] == "end":
            opened.pop()
        elif tokens[0] == "else":
            _, cond = opened.pop()
            cond.branches.append(code.open(f"else of {cond.name}"))
            opened.append((cond.branches[-1], cond))
        else:
            node = read_node(code, opened[-1][0], tokens, line)
            if node.kind == "cond":
                node.branches = [code.open(f"then of {node.name}")]
                opened.append((node.branches[0], node))
    for code in codes:
        add_edges(code)
    return codes


def read_node(code, block, tokens, line):
    name, words = (tokens[0].split(":")[0], tokens[2:]) if tokens[1] == "=" else (None, tokens)
    node = Node(len(code.nodes), block, name, words, line)
    code.nodes.append(node)
    code.named[name] = node
    block.vertices += node.vertices()
    return node


def values_of(code, node):
    """The names of the values that a node takes."""
    words = node.words
    if node.kind in WITHOUT_OPERANDS:
        return []
    if node.kind == "arg":
        return [words[1], words[3]]
    if node.kind == "switch":
        return [code.named[words[1]].words[1], words[3]]
    return words[2:] if node.kind in ("result", "out") else words[1:]


def add_edges(code):
    for node in code.nodes:
        for name in dict.fromkeys(values_of(code, node)):
            giver = code.named[name].gives
            giver.below.append(node.takes)
            node.takes.above.append(giver)


def links_of(codes):
    """What goes through the outside of a block: pairs of an outlet and of an inlet that a message or a value reaches from it."""
    called = {code.name: code for code in codes}
    links = []
    for code in codes:
        for node in code.nodes:
            if node.kind in HALVED:
                links.append((node.takes, node.gives))
            elif node.kind in ("arg", "ret"):
                other = called[code.named[node.words[1]].words[1]]
                for end in other.interface("param" if node.kind == "arg" else "result", node.words[2]):
                    links.append((node.takes, end.gives) if node.kind == "arg" else (end.takes, node.gives))
            elif node.kind in ("switch", "merge"):
                for branch in code.named[node.words[1]].branches:
                    for end in code.interface("in" if node.kind == "switch" else "out", node.words[2], branch):
                        links.append((node.takes, end.gives) if node.kind == "switch" else (end.takes, node.gives))
    return links


def read_threads(text, codes):
    """Gives each vertex the numbers of its thread, from 0 in the order of the text of `parts`."""
    count = first = 0
    for line in text.splitlines():
        token, *rest = line.split()
        if token == "code":
            code, first = codes[int(rest[0])], count
        elif token == "block":
            named = {vertex.name: vertex for vertex in code.blocks[int(rest[0])].vertices}
        else:
            for name in rest:
                named[name].thread, named[name].thread_in_code = count, count - first
            count += 1
