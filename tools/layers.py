"""Puts the vertices of a block in layers, from its inlets above to its outlets below, so that no two boxes and no line and box meet."""

BOX_HEIGHT, LAYER_GAP, SIDE_GAP = 40, 48, 22
LETTER, SMALL_LETTER = 7.3, 6.1


class Bend:
    """A place in a layer where a long edge goes through."""

    width, thread, role = 10, -1, "bend"

    def __init__(self, above):
        self.above, self.below = [above], []


def small_text(vertex):
    return f"vertex {vertex.name}, thread {vertex.thread_in_code}"


def arrange(block):
    """Sets `x` (the middle), `layer` and `width` of each vertex, and `lanes` (what each edge goes through), `items`, `width` and `height` of the block."""
    for vertex in block.vertices:
        vertex.width = max(LETTER * len(vertex.text), SMALL_LETTER * len(small_text(vertex))) + 22
    layers = layers_of(block)
    block.lanes = cut_long_edges(block, layers)
    layers = order(layers)
    place(layers)
    block.items = [item for layer in layers for item in layer]
    left = min((item.x - item.width / 2 for item in block.items), default=0)
    for item in block.items:
        item.x -= left
    block.width = max((item.x + item.width / 2 for item in block.items), default=0)
    block.height = len(layers) * BOX_HEIGHT + (len(layers) - 1) * LAYER_GAP


def layers_of(block):
    """By longest path; an outlet stands in the last layer, and what waits for nothing and is no inlet just above its first taker."""
    depth = {}

    def deepen(vertex):
        if vertex not in depth:
            depth[vertex] = 1 + max((deepen(giver) for giver in vertex.above), default=-1)
        return depth[vertex]

    last = max((deepen(vertex) for vertex in block.vertices), default=0)
    for vertex in block.vertices:
        if vertex.role == "outlet":
            depth[vertex] = last
    for vertex in block.vertices:
        if vertex.role == "inner" and not vertex.above and vertex.below:
            depth[vertex] = max(0, min(depth[taker] for taker in vertex.below) - 1)
        vertex.layer = depth[vertex]
    return [[vertex for vertex in block.vertices if vertex.layer == n] for n in range(last + 1)]


def cut_long_edges(block, layers):
    lanes = []
    for vertex in block.vertices:
        vertex.up, vertex.down = [], []
    for vertex in block.vertices:
        for taker in vertex.below:
            lane = [vertex]
            for n in range(vertex.layer + 1, taker.layer):
                bend = Bend(lane[-1])
                bend.layer, bend.up, bend.down = n, [], []
                layers[n].append(bend)
                lane.append(bend)
            lane.append(taker)
            for one, next_one in zip(lane, lane[1:]):
                one.down.append(next_one)
                next_one.up.append(one)
            lanes.append(lane)
    return lanes


def crossings(layers):
    count = 0
    for layer, lower in zip(layers, layers[1:]):
        at = {item: n for n, item in enumerate(lower)}
        ends = [at[end] for item in layer for end in sorted(item.down, key=at.get)]
        count += sum(1 for n, end in enumerate(ends) for other in ends[n + 1:] if other < end)
    return count


def strangers(layers):
    """How many neighbours in a layer are of different threads."""
    return sum(1 for layer in layers for one, other in zip(layer, layer[1:]) if one.thread != other.thread)


def disorder(layers):
    """How many pairs of a layer stand against the order of their nodes."""
    count = 0
    for layer in layers:
        numbers = [int(item.name.rstrip("ab")) for item in layer if item.role != "bend"]
        count += sum(1 for n, one in enumerate(numbers) for other in numbers[n + 1:] if other < one)
    return count


def cost(layers):
    return crossings(layers), strangers(layers), disorder(layers)


def order(layers):
    """The layers in the order of fewest crossings that sweeps by the mean places of neighbours find, threads together where that costs none."""
    best, least = [list(layer) for layer in layers], cost(layers)
    for sweep in range(40):
        downward = sweep % 2 == 0
        for n in range(1, len(layers)) if downward else range(len(layers) - 2, -1, -1):
            beside = layers[n - 1] if downward else layers[n + 1]
            at = {item: k for k, item in enumerate(beside)}
            own = {item: k for k, item in enumerate(layers[n])}

            def mean(item):
                ends = [at[end] for end in (item.up if downward else item.down)]
                return sum(ends) / len(ends) if ends else own[item] * len(beside) / len(own)

            layers[n].sort(key=lambda item: (mean(item), item.thread if sweep % 4 < 2 else -item.thread))
        exchange(layers)
        now = cost(layers)
        if now < least:
            best, least = [list(layer) for layer in layers], now
    for _ in range(3):
        mirrored = [layer[::-1] for layer in best]
        exchange(mirrored)
        best = min(best, mirrored, key=cost)
    return best


def exchange(layers):
    """Exchanges neighbours in a layer as long as that saves a crossing, or parts fewer of one thread, or mends the order of nodes."""
    for layer in layers:
        for n, item in enumerate(layer):
            item.at = n
    for layer in layers:
        for n in range(len(layer) - 1):
            one, other = layer[n], layer[n + 1]
            around = layer[max(0, n - 1):n], layer[n + 2:n + 3]
            if cost_beside(other, one, *around) < cost_beside(one, other, *around):
                layer[n], layer[n + 1] = other, one
                one.at, other.at = n + 1, n


def cost_beside(one, other, before, behind):
    """What the order of two neighbours costs."""
    cuts = sum(1 for ends, others in ((one.up, other.up), (one.down, other.down)) for end in ends for at in others if at.at < end.at)
    return cuts, strangers([[*before, one, other, *behind]]), disorder([[one, other]])


def place(layers):
    """Draws each item towards the middle of its neighbours, and keeps the boxes of a layer apart."""
    for layer in layers:
        settle(layer, [0] * len(layer))
    for sweep in range(60):
        for layer in layers if sweep % 2 == 0 else layers[::-1]:
            settle(layer, [wanted(item, sweep) for item in layer])
    draw_together(layers)


def draw_together(layers):
    """Moves what hangs together by edges to the left, as far as what stands there lets it."""
    before = {item: layer[n - 1] if n > 0 else None for layer in layers for n, item in enumerate(layer)}
    edge = min((layer[0].x - layer[0].width / 2 for layer in layers if layer), default=0)
    for _ in range(len(before)):
        moved = False
        for group in sorted(groups_of(before), key=lambda group: min(item.x - item.width / 2 for item in group)):
            room = min(free_room(item, before[item], edge) for item in group if before[item] not in group)
            if room > 0.5:
                moved = True
                for item in group:
                    item.x -= room
        if not moved:
            break


def free_room(item, other, edge):
    return item.x - item.width / 2 - (other.x + other.width / 2 + SIDE_GAP if other else edge)


def groups_of(items):
    groups, seen = [], set()
    for item in items:
        group, todo = set(), [item]
        while todo:
            one = todo.pop()
            if one not in seen:
                seen.add(one)
                group.add(one)
                todo += one.up + one.down
        if group:
            groups.append(group)
    return groups


def wanted(item, sweep):
    ends = [end.x for end in (item.up + item.down if sweep > 20 else item.up if sweep % 2 == 0 else item.down)]
    return sum(ends) / len(ends) if ends else getattr(item, "x", 0)


def settle(layer, aims):
    """The places that are nearest to the aims (least squares) with the boxes in their order and apart: neighbours too close become one group."""
    offsets, groups = [0], []
    for one, other in zip(layer, layer[1:]):
        offsets.append(offsets[-1] + (one.width + other.width) / 2 + SIDE_GAP)
    for n, aim in enumerate(aims):
        groups.append([aim - offsets[n], 1])
        while len(groups) > 1 and groups[-2][0] > groups[-1][0]:
            mean, count = groups.pop()
            before = groups[-1]
            before[0] = (before[0] * before[1] + mean * count) / (before[1] + count)
            before[1] += count
    start = [mean for mean, count in groups for _ in range(count)]
    for item, at, offset in zip(layer, start, offsets):
        item.x = at + offset
