"""Puts the blocks of the codes side by side, a code below another, and leads the links between them through channels of their own."""
from layers import BOX_HEIGHT, LAYER_GAP, LETTER

TRACK, MARGIN, PAD, TITLE, GAP = 9, 16, 14, 24, 18


class Link:
    def __init__(self, source, target):
        self.source, self.target = source, target


def lay_out(codes, links):
    """Places codes, blocks and vertices. Answers the links with the corners of their lines (`points`), and the width and the height of all."""
    column = {}
    for n, code in enumerate(codes):
        code.passing = [[] for _ in range(len(code.blocks) + 1)]
        for k, block in enumerate(code.blocks):
            for vertex in block.vertices:
                column[vertex] = (n, k)
    links = [Link(source, target) for source, target in links]
    left, right = [], []
    for link in links:
        choose_passage(link, codes, column, left, right)
    across = place_across(codes, left, right, share_ends(links))
    down = place_down(codes, links)
    for link in links:
        link.points = points_of(link)
    return links, across, down


def choose_passage(link, codes, column, left, right):
    """A link to the next code goes straight down; one within a code beside a block; any other outside of the codes."""
    (n, k), (m, j) = column[link.source], column[link.target]
    link.codes = (n, m)
    if m == n + 1:
        link.passage = None
    elif m == n:
        block = codes[n].blocks[j]
        if k != j:
            gap = j if k < j else j + 1
        else:
            gap = j if link.source.x + link.target.x < block.width else j + 1
        link.passage = codes[n].passing[gap]
    else:
        link.passage = right if m < n else left
    if link.passage is not None:
        link.passage.append(link)


def share_ends(links):
    """Spreads the links of one vertex over its border."""
    ends = {}
    for link in links:
        ends.setdefault((link.source, "source"), []).append(link)
        ends.setdefault((link.target, "target"), []).append(link)
    for (vertex, end), ones in ends.items():
        step = min(10, (vertex.width - 24) / max(1, len(ones) - 1)) if len(ones) > 1 else 0
        for n, link in enumerate(ones):
            setattr(link, end + "_offset", (n - (len(ones) - 1) / 2) * step)
    return ends


def place_across(codes, left, right, ends):
    """Sets where codes, blocks, vertices and passages stand from left to right; answers the width of all."""
    edge = MARGIN + (TRACK * len(left) + GAP if left else 0)
    for code in codes:
        code.x = at = edge
        least = LETTER * (len(code.name) + 6) + 2 * PAD
        for k, block in enumerate(code.blocks):
            block.x = at = pass_beside(code.passing[k], at, least if k == 0 else 0)
            shift = PAD + title_room(block, ends)
            for item in block.items:
                item.x += at + shift
            block.width = max(block.width + shift + PAD, title_width(block) + 2 * PAD)
            at += block.width
        code.width = pass_beside(code.passing[-1], at, 0) - edge
    width = max(code.width for code in codes)
    outside(left, edge - GAP, -TRACK)
    outside(right, edge + width + GAP, TRACK)
    return edge + width + MARGIN + (TRACK * len(right) + GAP if right else 0)


def title_width(block):
    return max(LETTER * len(line) for line in block.title)


def title_room(block, ends):
    """How far the vertices move to the right, so that no link from above crosses the title."""
    entered = [vertex.x - 12 for vertex in block.vertices if (vertex, "target") in ends]
    return max(0, title_width(block) + 8 - min(entered)) if entered else 0


def pass_beside(links, at, least):
    """The links go beside each other from `at` on; answers where what stands behind them begins."""
    for n, link in enumerate(sorted(links, key=lambda one: one.source.x)):
        link.x = at + GAP + n * TRACK
    return at + max(least, GAP + (TRACK * (len(links) - 1) + GAP if links else 0))


def outside(links, at, step):
    """Longer ways further outside."""
    for n, link in enumerate(sorted(links, key=lambda one: abs(one.codes[0] - one.codes[1]))):
        link.x = at + n * step


def place_down(codes, links):
    """Sets the heights of codes, blocks and vertices, and the tracks of the links; answers the height of all."""
    at = MARGIN
    for n, code in enumerate(codes):
        code.y = at
        into = [(link, link.x, target_x(link)) for link in links if link.codes[1] == n and link.passage is not None]
        out = [(link, source_x(link), target_x(link) if link.passage is None else link.x) for link in links if link.codes[0] == n]
        at = lay_tracks(into, at + TITLE + 8, "upper")
        for block in code.blocks:
            place_block(block, at)
        at += max(block.height for block in code.blocks)
        at = lay_tracks(out, at + 10, "lower")
        code.height = at - code.y
        at += 2 * GAP
    return at


def place_block(block, at):
    block.y, head = at, 14 * len(block.title)
    block.height += 2 * PAD + head
    for item in block.items:
        item.y = at + PAD + head + item.layer * (BOX_HEIGHT + LAYER_GAP)


def lay_tracks(spans, at, side):
    """Sets the height of each link's way across on one side of the blocks; answers where what is below begins."""
    tracks = take_tracks(spans)
    for link, track in tracks.items():
        setattr(link, side, at + track * TRACK)
    return at + (TRACK * (max(tracks.values()) + 1) + 6 if tracks else 4)


def take_tracks(spans):
    """Gives each span the first track on which it meets no other."""
    ends, tracks = [], {}
    for link, one, other in sorted(spans, key=lambda span: (min(span[1:]), max(span[1:]))):
        low, high = min(one, other), max(one, other)
        track = next((n for n, end in enumerate(ends) if end + TRACK < low), len(ends))
        ends[track:track + 1] = [high]
        tracks[link] = track
    return tracks


def source_x(link):
    return link.source.x + link.source_offset


def target_x(link):
    return link.target.x + link.target_offset


def points_of(link):
    """The corners of a link, from below the box that it leaves to above the one that it enters."""
    start, end = source_x(link), target_x(link)
    first, last = (start, link.source.y + BOX_HEIGHT + 1), (end, link.target.y - 1)
    if link.passage is None:
        return [first, (start, link.lower), (end, link.lower), last]
    return [first, (start, link.lower), (link.x, link.lower), (link.x, link.upper), (end, link.upper), last]
