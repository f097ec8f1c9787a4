#!/usr/bin/env python3
"""Draws a graph as an SVG: its codes and blocks as boxes, their vertices and edges, and each thread in a colour of its own.

usage: picture.py GRAPH [PROGRAM] >PICTURE

What is drawn comes from two texts of the program (./tam beside this folder where none is named): `emit-dg`, the graph's canonical text, and `parts`,
the threads of its blocks. Edges are whole lines. What goes through the outside of a block, as a message or into a branch and out of it, is dashed.
"""
import colorsys
import os
import subprocess
import sys
from html import escape

from graph_texts import links_of, read_graph, read_threads
from layers import BOX_HEIGHT, LETTER, arrange, small_text
from routes import PAD, lay_out

FONT = "font-family='DejaVu Sans Mono, Menlo, Consolas, monospace'"
LEGEND = [
    "Round box: inlet. Square box: inner vertex. Heavy frame: outlet. Each thread has a colour of its own.",
    "Whole line: edge of a block. Dashed line: a message, or the way into a branch or out of it.",
]


def text_of(program, mode, graph):
    run = subprocess.run([program, mode, graph], stdout=subprocess.PIPE)
    if run.returncode != 0:
        sys.stderr.buffer.write(run.stdout)
        sys.exit(run.returncode)
    return run.stdout.decode()


def colour(n, light, full):
    """Hues a golden angle apart, so that no two are alike; every eighth is darker, so that near hues differ too."""
    shade = light - 0.07 * (n // 8 % 3) if light > 0.6 else light
    red, green, blue = colorsys.hls_to_rgb((0.58 + n * 0.381966) % 1, shade, full)
    return f"#{round(red * 255):02x}{round(green * 255):02x}{round(blue * 255):02x}"


def number(value):
    return f"{value:.1f}".rstrip("0").rstrip(".")


def rounded(points, radius=5):
    """A path through the points, its corners rounded."""
    path = f"M{number(points[0][0])} {number(points[0][1])}"
    for (ax, ay), (bx, by), (cx, cy) in zip(points, points[1:], points[2:]):
        before, behind = abs(bx - ax) + abs(by - ay), abs(cx - bx) + abs(cy - by)
        r = min(radius, before / 2, behind / 2)
        if r < 0.5:
            path += f"L{number(bx)} {number(by)}"
            continue
        path += f"L{number(bx - (bx - ax) / before * r)} {number(by - (by - ay) / before * r)}"
        path += f"Q{number(bx)} {number(by)} {number(bx + (cx - bx) / behind * r)} {number(by + (cy - by) / behind * r)}"
    return path + f"L{number(points[-1][0])} {number(points[-1][1])}"


def curved(points):
    """A path down the points: a curve from layer to layer, and straight beside the boxes of a layer."""
    path = f"M{number(points[0][0])} {number(points[0][1])}"
    for k in range(1, len(points)):
        (ax, ay), (bx, by) = points[k - 1], points[k]
        if k % 2 == 1:
            half = number((ay + by) / 2)
            path += f"C{number(ax)} {half} {number(bx)} {half} {number(bx)} {number(by)}"
        else:
            path += f"L{number(bx)} {number(by)}"
    return path


def spread(ends, width):
    """Where edges stand beside each other on a border of a box."""
    step = min(12, (width - 24) / max(1, len(ends) - 1))
    return {lane: (n - (len(ends) - 1) / 2) * step for n, lane in enumerate(ends)}


def draw_edges(block):
    parts = []
    leaving, coming = {}, {}
    for vertex in block.vertices:
        out = sorted((n for n, lane in enumerate(block.lanes) if lane[0] is vertex), key=lambda n: block.lanes[n][1].x)
        into = sorted((n for n, lane in enumerate(block.lanes) if lane[-1] is vertex), key=lambda n: block.lanes[n][-2].x)
        leaving.update(spread(out, vertex.width))
        coming.update(spread(into, vertex.width))
    for n, lane in enumerate(block.lanes):
        points = [(lane[0].x + leaving[n], lane[0].y + BOX_HEIGHT)]
        for bend in lane[1:-1]:
            points += [(bend.x, bend.y), (bend.x, bend.y + BOX_HEIGHT)]
        points.append((lane[-1].x + coming[n], lane[-1].y - 1))
        parts.append(f"<path d='{curved(points)}' fill='none' stroke='#333' stroke-width='1.3' marker-end='url(#edge)'/>")
    return parts


def draw_link(link):
    stroke = colour(link.source.thread, 0.42, 0.6)
    return f"<path d='{rounded(link.points)}' fill='none' stroke='{stroke}' stroke-width='1.4' stroke-dasharray='5 3' marker-end='url(#link)'/>"


def draw_text(x, y, size, fill, text, more=""):
    return f"<text x='{number(x)}' y='{number(y)}' font-size='{size}' fill='{fill}'{more}>{escape(text)}</text>"


def draw_box(box, style):
    return f"<rect x='{number(box.x)}' y='{number(box.y)}' width='{number(box.width)}' height='{number(box.height)}' {style}/>"


def draw_vertex(vertex):
    x = vertex.x - vertex.width / 2
    radius = 16 if vertex.role == "inlet" else 3
    border = 3 if vertex.role == "outlet" else 1.3
    fill, stroke = colour(vertex.thread, 0.87, 0.75), colour(vertex.thread, 0.36, 0.65)
    return [
        f"<rect x='{number(x)}' y='{number(vertex.y)}' width='{number(vertex.width)}' height='{BOX_HEIGHT}' rx='{radius}'"
        f" fill='{fill}' stroke='{stroke}' stroke-width='{border}'/>",
        draw_text(vertex.x, vertex.y + 17, 12, "#111", vertex.text, " text-anchor='middle'"),
        draw_text(vertex.x, vertex.y + 32, 10, "#333", small_text(vertex), " text-anchor='middle'"),
    ]


def draw_code(code):
    """The boxes of a code and of its blocks, then what stands in them."""
    parts = [draw_box(code, "rx='6' fill='#f4f4f2' stroke='#888'")]
    parts.append(draw_text(code.x + PAD, code.y + 19, 14, "#111", f"code {code.name}", " font-weight='bold'"))
    for block in code.blocks:
        parts.append(draw_box(block, "rx='4' fill='#fff' stroke='#aaa'"))
        parts += [draw_text(block.x + 8, block.y + 16 + 14 * n, 12, "#444", line) for n, line in enumerate(block.title)]
        parts += draw_edges(block)
        for vertex in block.vertices:
            parts += draw_vertex(vertex)
    return parts


def draw(codes, links):
    for code in codes:
        for block in code.blocks:
            arrange(block)
    links, width, height = lay_out(codes, links)
    legend = [draw_text(PAD + 2, height + 4 + 17 * n, 12, "#333", line) for n, line in enumerate(LEGEND)]
    width, height = max(width, LETTER * max(map(len, LEGEND)) + 2 * PAD), height + 17 * len(LEGEND) + 4
    return "\n".join([
        f"<svg xmlns='http://www.w3.org/2000/svg' width='{number(width)}' height='{number(height)}' viewBox='0 0 {number(width)} {number(height)}' {FONT}>",
        "<defs>" + arrow("edge", "#333") + arrow("link", "#666") + "</defs>",
        "<rect width='100%' height='100%' fill='#fff'/>",
        *[part for code in codes for part in draw_code(code)],
        *[draw_link(link) for link in links],
        *legend,
        "</svg>\n",
    ])


def arrow(name, fill):
    shape = f"<path d='M0 0L8 4L0 8z' fill='{fill}'/>"
    return f"<marker id='{name}' viewBox='0 0 8 8' refX='7' refY='4' markerWidth='7' markerHeight='7' orient='auto'>{shape}</marker>"


def main():
    if not 2 <= len(sys.argv) <= 3:
        sys.exit(__doc__.split("\n\n")[1])
    here = os.path.dirname(os.path.abspath(__file__))
    program = sys.argv[2] if len(sys.argv) == 3 else os.path.join(os.path.dirname(here), "tam")
    codes = read_graph(text_of(program, "emit-dg", sys.argv[1]))
    read_threads(text_of(program, "parts", sys.argv[1]), codes)
    sys.stdout.write(draw(codes, links_of(codes)))


if __name__ == "__main__":
    main()
