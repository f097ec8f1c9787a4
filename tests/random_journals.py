#!/usr/bin/env python3
"""Makes lists of events over small graphs, and tells by the rules of journals which of them are journals.

usage: random_journals.py > crates/tam_judge_tests/src/random_journals.rt
       random_journals.py --check

With `--check` it compares the table with the one in the crate. Half of the lists are walks along the rules, the others
are walks in which one event was changed so that the rules refuse it. The chance is seeded, so each run makes the same lists.

A plain and slow program: it keeps all that happened and asks the rules anew before each event. It takes nothing from
the program that it tests. The rules: the arguments are sent first, by place. A class of the body of the root runs once,
after each of its inlets has got a word and each class from which an edge leads to it has run. Its vertices fire with no
vertex before one that gives it a value, the least first where several may. Firing an operator writes its word. Firing an
alloc, a fetch, a store or a result sends a message. Each message arrives once, after it was sent: a word for a node is
written, a result goes outside, an alloc is answered by a new array, a fetch by a cell's word once there is one. A second
store into a cell and an access outside an array end the journal. Messages are numbered in the order in which they are sent.
"""

import os
import random
import sys

TABLE = os.path.join(os.path.dirname(os.path.dirname(os.path.abspath(__file__))), "crates", "tam_judge_tests", "src", "random_journals.rt")

SUM = ["a = param 0", "b = param 1", "s = add a b", "result 0 s"]
WAITING = ["n = const 1", "A = alloc n", "z = const 0", "v = fetch A z", "x = param 0", "y = add x n", "result 0 v", "result 1 y"]
WRITING = ["n = const 1", "A = alloc n", "z = const 0", "x = param 0", "store A z n", "store A x z", "v = fetch A z", "result 0 v"]

# name of the table, what it has, nodes, arguments, classes
CASES = [
    ("SUM_IN_ONE", "The sum of 2 and 3 in one class.", SUM, [2, 3], [[0, 1, 2, 3]]),
    ("SUM_IN_SINGLES", "The sum of 2 and 3, each vertex a class.", SUM, [2, 3], [[place] for place in range(4)]),
    ("WAITING_IN_FOUR", "A cell that is never written, in four classes.", WAITING, [6], [[0, 1, 3], [2, 4], [5, 8], [6, 7, 9]]),
    ("WAITING_IN_SINGLES", "A cell that is never written, each vertex a class.", WAITING, [6], [[place] for place in range(10)]),
    ("WRITING_IN_FOUR", "A cell that is written twice, in four classes.", WRITING, [0], [[0, 1], [2, 3, 5, 7], [4, 6], [8, 9]]),
    ("WRITING_IN_SINGLES", "A store outside an array, each vertex a class.", WRITING, [1], [[place] for place in range(10)]),
]

LISTS = 24
LONGEST = 18
WAYS = ["repeat", "move", "leave out", "elsewhere", "replace", "repeat", "move", "elsewhere"]


class Block:
    """The body of a graph: nodes as (verb, number, operands), vertices as (node, half), edges, classes."""

    def __init__(self, lines, classes):
        names = [line.split()[0] for line in lines]
        self.nodes = []
        for line in lines:
            words = line.split()[2:] if " = " in line else line.split()
            numbers = [int(word) for word in words[1:] if word.isdigit()]
            self.nodes.append((words[0], numbers[0] if numbers else None, [names.index(word) for word in words[1:] if not word.isdigit()]))
        self.vertices = []
        for node, (verb, _, _) in enumerate(self.nodes):
            self.vertices += [(node, "ask"), (node, "answer")] if verb in ("alloc", "fetch") else [(node, "whole")]
        self.edges = set()
        for to, (taker, half) in enumerate(self.vertices):
            for giver in self.nodes[taker][2] if half != "answer" else []:
                self.edges.add((next(place for place, (node, given) in enumerate(self.vertices) if node == giver and given != "ask"), to))
        self.classes = classes

    def is_inlet(self, place):
        node, half = self.vertices[place]
        return half == "answer" or self.nodes[node][0] == "param"

    def inlets(self, number):
        """The nodes whose words a class waits for."""
        return [self.vertices[place][0] for place in self.classes[number] if self.is_inlet(place)]

    def before(self, number):
        """The other classes from which an edge leads to a class."""
        own = self.classes[number]
        return [other for other, group in enumerate(self.classes) if other != number and any(one in group and two in own for one, two in self.edges)]

    def order(self, number):
        left, order = sorted(self.classes[number]), []
        while left:
            place = next(place for place in left if not any((other, place) in self.edges for other in left))
            left.remove(place)
            order.append(place)
        return order


class Journal:
    """What the events so far have left."""

    def __init__(self, block, arguments):
        self.block = block
        params = {number: node for node, (verb, number, _) in enumerate(block.nodes) if verb == "param"}
        self.sent = [("word", params[place], word) for place, word in enumerate(arguments)]
        self.arrived, self.ran, self.words, self.arrays, self.ended = set(), set(), {}, [], False

    def may(self, event):
        if self.ended:
            return False
        if event[0] == "deliver":
            return event[1] < len(self.sent) and event[1] not in self.arrived
        _, activation, block, number = event
        if activation != 0 or block != 0 or number >= len(self.block.classes) or number in self.ran:
            return False
        return all(node in self.words for node in self.block.inlets(number)) and all(other in self.ran for other in self.block.before(number))

    def make(self, event):
        if event[0] == "deliver":
            self.arrived.add(event[1])
            self.deliver(self.sent[event[1]])
        else:
            self.ran.add(event[3])
            for place in self.block.order(event[3]):
                if not self.block.is_inlet(place):
                    self.fire(self.block.vertices[place][0])

    def fire(self, node):
        verb, number, operands = self.block.nodes[node]
        words = [self.words[operand] for operand in operands]
        if verb == "const":
            self.words[node] = number
        elif verb == "add":
            self.words[node] = sum(words) % 2**32
        elif verb == "result":
            self.sent.append(("outside", number, words[0]))
        elif verb in ("alloc", "fetch", "store"):
            self.sent.append((verb, node, words))
        else:
            raise ValueError(verb)

    def deliver(self, message):
        kind, node, carried = message
        if kind == "word":
            self.words[node] = carried
        elif kind == "alloc":
            self.arrays.append((carried[0], {}, {}))
            self.sent.append(("word", node, len(self.arrays) - 1))
        elif kind in ("fetch", "store"):
            self.access(kind, node, *carried)

    def access(self, kind, node, array, index, word=None):
        """A fetch or a store arrives. Of an array its length, its words and those who wait for a word are kept, by index."""
        length, words, waiting = self.arrays[array]
        self.ended = index >= length or kind == "store" and index in words
        if self.ended:
            return
        if kind == "store":
            words[index] = word
            self.sent += [("word", reader, word) for reader in waiting.pop(index, [])]
        elif index in words:
            self.sent.append(("word", node, words[index]))
        else:
            waiting.setdefault(index, []).append(node)

    def next_events(self):
        events = [("deliver", number) for number in range(len(self.sent))] + [("run", 0, 0, number) for number in range(len(self.block.classes))]
        return [event for event in events if self.may(event)]


def is_journal(block, arguments, events):
    journal = Journal(block, arguments)
    for event in events:
        if not journal.may(event):
            return False
        journal.make(event)
    return True


def pick(chance, items):
    """One of the items. Of all that `random` offers, only random() gives the same in each version."""
    return items[int(chance.random() * len(items))]


def walk(chance, block, arguments):
    """A list of events that may follow one another, of a length by chance."""
    journal, events = Journal(block, arguments), []
    for _ in range(pick(chance, range(LONGEST + 1))):
        choices = journal.next_events()
        if not choices:
            break
        events.append(pick(chance, choices))
        journal.make(events[-1])
    return events


def beyond(chance, block, arguments):
    """A list of events until none may follow, and one more that could follow if the journal hadn't ended."""
    journal, events = Journal(block, arguments), []
    while not journal.ended and journal.next_events():
        events.append(pick(chance, journal.next_events()))
        journal.make(events[-1])
    journal.ended = False
    choices = journal.next_events()
    return events + [pick(chance, choices)] if choices else events


def any_event(chance, block):
    """An event that may be out of place, or of something that isn't there."""
    number = pick(chance, range(len(block.classes) + 1))
    message = ("deliver", pick(chance, range(10)))
    return pick(chance, [message, message, message, ("run", 0, 0, number), ("run", 0, 0, number), ("run", 1, 0, number), ("run", 0, 1, number)])


def changed(chance, block, events, way):
    """The events with one of them repeated, moved, left out, put elsewhere (where it is a run), or another in its place."""
    event, place = pick(chance, events), pick(chance, range(len(events) + 1))
    others = [other for other in events if other != event]
    if way == "repeat":
        return events[:place] + [event] + events[place:]
    if way == "move":
        return others[:place] + [event] + others[place:]
    if way == "leave out":
        return others
    if way == "elsewhere":
        activation, number = pick(chance, [(1, 0), (0, 1)])
        return [("run", activation, number, event[3]) if other == event and event[0] == "run" else other for other in events]
    return events[:place] + [any_event(chance, block)] + events[place + 1:]


def lists(name, block, arguments):
    """Different lists, each with whether it is a journal: half of them walks, where the rules allow so many, then changed walks that the rules refuse."""
    chance, rows = random.Random(name), {}
    for _ in range(1000):
        events = walk(chance, block, arguments)
        if len(rows) < LISTS // 2:
            rows.setdefault(tuple(events), is_journal(block, arguments, events))
    ways = WAYS + ["go on"] * (4 if any(verb == "store" for verb, _, _ in block.nodes) else 0)
    while len(rows) < LISTS:
        way = ways[len(rows) % len(ways)]
        events = beyond(chance, block, arguments) if way == "go on" else walk(chance, block, arguments)
        if events and way != "go on":
            events = changed(chance, block, events, way)
        if len(events) <= LONGEST and not is_journal(block, arguments, events):
            rows.setdefault(tuple(events), False)
    return rows


def letter(event):
    if event[0] == "deliver":
        return str(event[1])
    _, activation, block, number = event
    return chr(number + ord("n" if activation else "a" if block else "A"))


def table():
    lines = [
        "// Lists of events, and whether each is a journal. Written by tests/random_journals.py, by rules of its own.",
        "//",
        "// A digit delivers the message of that number. A capital runs a class of the body of the root, A the first. A letter from a on runs one",
        "// of a second block, and a letter from n on one of a second activation, which aren't there.",
    ]
    for name, says, nodes, arguments, classes in CASES:
        block = Block(nodes, classes)
        rows = lists(name, block, arguments)
        lines += ["", f"/// {says}", "#[rattlefmt::skip]", f"pub(super) const {name}: [(&[u8], bool); {len(rows)}] = ["]
        lines += [f'    (b"{"".join(letter(event) for event in events)}", {"true" if legal else "false"}),' for events, legal in rows.items()]
        lines.append("];")
    return "\n".join(lines) + "\n"


def main():
    if sys.argv[1:] == ["--check"]:
        with open(TABLE) as file:
            if file.read() != table():
                sys.exit(f"{TABLE} is not the table that this script writes")
    elif sys.argv[1:]:
        sys.exit(__doc__)
    else:
        sys.stdout.write(table())


main()
