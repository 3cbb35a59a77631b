"""The PPTT as nested boxes with caches. Subtrees that are equal are drawn once, with their number, and cycles as rings."""

import math
from typing import NamedTuple

from .amounts import counted, listed, size_of
from .bars import WIDTH, found_here
from .markup import box, element, label, line, note, path, picture, title, width_of

PACKAGE, ID_VALID, THREAD, LEAF = 1, 2, 4, 8
SIZE_VALID, TYPE_VALID = 1, 1 << 4
CACHE_TYPES = ("data", "instruction", "unified", "unified")

MOST_BOXES, MOST_DEPTH, MOST_IN_CHAIN, MOST_IN_RING, MOST_CHIPS = 400, 16, 8, 24, 48
PADDING, HEAD, CHIP, STACK = 8, 22, 20, 3
LEAST_WIDTH, WIDTH_OF_CHIPS = 200, 420


class Block(NamedTuple):
    """A part of the picture: its size, and what draws it with its corner at (x, y)."""

    width: float
    height: float
    draw: object


def flowed(blocks, most_width: float, gap: float = 6) -> Block:
    """Blocks side by side, in as many rows as they need."""
    x = y = height = width = 0
    placed = []
    for block in blocks:
        if x and x + block.width > most_width:
            x, y, height = 0, y + height + gap, 0
        placed.append((x, y, block))
        x, height, width = x + block.width + gap, max(height, block.height), max(width, x + block.width)
    return Block(width, y + height, lambda left, top: "".join(block.draw(left + x, top + y) for x, y, block in placed))


def stacked(blocks, gap: float = 6) -> Block:
    """Blocks below one another, without empty ones."""
    blocks = [block for block in blocks if block.height]
    height, placed = 0, []
    for block in blocks:
        placed.append((height, block))
        height += block.height + gap
    width = max((block.width for block in blocks), default=0)
    return Block(width, max(height - gap, 0), lambda left, top: "".join(block.draw(left, top + y) for y, block in placed))


def text_block(text: str, class_: str = "small") -> Block:
    return Block(width_of(text), 16, lambda x, y: label(x, y + 12, text, class_))


def cycles_of(links: dict) -> list:
    """The cycles of a map in which each key leads to one other, each from its lowest key on."""
    done, found = set(), []
    for start in links:
        steps, at = {}, start
        while at in links and at not in done and at not in steps:
            steps[at] = len(steps)
            at = links[at]
        if at in steps:
            cycle = [key for key, step in steps.items() if step >= steps[at]]
            lowest = cycle.index(min(cycle))
            found.append(cycle[lowest:] + cycle[:lowest])
        done.update(steps)
    return found


def leading(sources: dict, cycle) -> list:
    """Those that lead into a cycle and are no part of it, where `sources` has what leads to each directly."""
    seen, order = set(cycle), list(cycle)
    for offset in order:
        found = [source for source in sources.get(offset, ()) if source not in seen]
        seen.update(found)
        order += found
    return order[len(cycle) :]


class Topology:
    def __init__(self, contents, marks):
        self.nodes, self.caches, self.marks = contents.nodes, contents.caches, marks
        self.children = {}
        for node in self.nodes.values():
            self.children.setdefault(node.parent, []).append(node.offset)
        self.roots = {node.offset: node for node in self.nodes.values() if node.parent not in self.nodes}
        self.reached = self.below(self.roots)
        self.shapes = self.known_shapes()
        self.drawn_boxes = self.left_out = 0

    def below(self, offsets) -> list:
        """These nodes and all nodes below them, each after its parent."""
        order = list(offsets)
        for offset in order:
            order += self.children.get(offset, ())
        return order

    # ---- caches

    def chain(self, offset: int) -> list:
        """The offsets of a cache and of those after it, up to one that comes again."""
        found = []
        while offset and offset not in found and len(found) < MOST_IN_CHAIN:
            found.append(offset)
            offset = self.caches[offset].next if offset in self.caches else 0
        return found

    def likeness_of_cache(self, offset: int) -> tuple:
        cache = self.caches.get(offset)
        return (cache and cache._replace(offset=0, next=0), tuple(self.marks.at(f"pptt-{offset:#x}")))

    def chip(self, offset: int, is_next: bool = False) -> Block:
        """A cache in one word."""
        cache, own = self.caches.get(offset), f"pptt-{offset:#x}"
        told, text = (cache_told(cache), cache_text(cache)) if cache else (f"{offset:#x} is no cache", f"{offset:#x}: no cache")
        arrow = "→ " if is_next else ""
        width = width_of(f"{arrow}{text}", 11) + 12

        def draw(x, y):
            is_first = cache is not None and not self.marks.is_drawn(own)
            parts = [title(f"{told}{self.marks.named(own)}"), box(x, y, width, CHIP - 4, f"cache{self.marks.kind(own)}", rx=3)]
            parts.append(label(x + 6, y + 12, f"{arrow}{text}", "small"))
            return element("g", *parts, id=self.marks.drawn(own) if is_first else None, class_="chip")

        return Block(width, CHIP, draw)

    def chips(self, node) -> Block:
        """The caches that a node names, each with those after it."""
        blocks = []
        for resource in node.resources[:MOST_CHIPS]:
            blocks += [self.chip(offset, place > 0) for place, offset in enumerate(self.chain(resource))]
        return flowed(blocks, WIDTH_OF_CHIPS, 4)

    # ---- nodes

    def known_shapes(self) -> dict:
        """A number for each node that is reached, the same one for nodes whose subtrees are alike."""
        numbers, shapes = {}, {}
        for offset in reversed(self.reached):
            node = self.nodes[offset]
            caches = tuple(tuple(map(self.likeness_of_cache, self.chain(resource))) for resource in node.resources)
            below = tuple(shapes[child] for child in self.children.get(offset, ()))
            shape = node.flags, caches, below, tuple(self.marks.at(f"pptt-{offset:#x}")), offset in self.roots and node.parent
            shapes[offset] = numbers.setdefault(shape, len(numbers))
        return shapes

    def grouped(self, offsets) -> list:
        """Nodes of one parent, those that are alike together."""
        groups = {}
        for offset in offsets:
            groups.setdefault(self.shapes[offset], []).append(offset)
        return list(groups.values())

    def block(self, group, most_width: float, depth: int) -> Block:
        """The box of nodes that are alike."""
        self.drawn_boxes += 1
        node = self.nodes[group[0]]
        name, places = self.name_of(group), tuple(f"pptt-{offset:#x}" for offset in group)
        below = self.children.get(node.offset, ())
        inner = self.blocks(below, most_width - 2 * PADDING, depth + 1)
        inside = stacked([self.chips(node), inner])
        width = max(width_of(name, 12.5) + self.marks.width(*places) + 2 * PADDING, inside.width + 2 * PADDING)
        height = HEAD + (inside.height + PADDING if inside.height else 4)
        behind = 2 * STACK if len(group) > 1 else 0

        def draw(x, y):
            shadows = [box(x + shift, y + shift, width, height, "node", rx=5) for shift in (2 * STACK, STACK) if behind]
            told = f"{self.told(node)}{self.marks.named(*places)}"
            shape = box(x, y, width, height, f"node{self.marks.kind(*places)}", rx=5)
            parts = [title(told), *shadows, shape, label(x + PADDING, y + 16, name, "strong")]
            parts += [self.marks.badge(x + width - 3, y + 3, *places), inside.draw(x + PADDING, y + HEAD)]
            return element("g", *parts, id=self.marks.drawn(*places), class_="node", data_count=len(group))

        return Block(width + behind, height + behind, draw)

    def blocks(self, offsets, most_width: float, depth: int) -> Block:
        """The boxes of nodes that have one parent, or of those at the top, and how many nodes are left out."""
        blocks, left_out = [], 0
        for group in self.grouped(offsets):
            if depth <= MOST_DEPTH and self.drawn_boxes < MOST_BOXES:
                blocks.append(self.block(group, most_width, depth))
            else:
                left_out += len(self.below(group))
        self.left_out += left_out
        blocks += [text_block(f"and {counted(left_out, 'node')} more")] if left_out else []
        return flowed(blocks, max(most_width, LEAST_WIDTH))

    def name_of(self, group) -> str:
        node = self.nodes[group[0]]
        name = kind_of(node)
        if len(group) > 1:
            name += f" × {len(group)}"
        ids = [self.nodes[offset].id for offset in group]
        if node.flags & ID_VALID:
            is_run = ids == list(range(ids[0], ids[0] + len(ids)))
            name += f", ID {ids[0]}" if len(ids) == 1 else f", IDs {ids[0]} to {ids[-1]}" if is_run else f", IDs {listed(ids, 6)}"
        if node.offset in self.roots and node.parent:
            name += f", parent {node.parent:#x} is no node"
        return name

    @staticmethod
    def told(node) -> str:
        parent = f"parent {node.parent:#x}" if node.parent else "no parent"
        return f"node at {node.offset:#x}: {kind_of(node)}, ID {node.id}, {parent}, flags {node.flags:#x}"

    # ---- cycles

    def rings(self, links: dict, word: str) -> list:
        """A ring for each cycle, and what leads into it."""
        blocks, sources = [], {}
        for offset, target in links.items():
            sources.setdefault(target, []).append(offset)
        for cycle in cycles_of(links)[:MOST_CHIPS]:
            into = leading(sources, cycle)
            heading = text_block(f"A cycle of {counted(len(cycle), word)}:", "strong")
            parts = [heading, self.ring(cycle)]
            if into:
                parts.append(text_block(f"Leading into it: {counted(len(into), word)}"))
                into.sort(key=lambda offset: not self.marks.at(f"pptt-{offset:#x}"))
                parts.append(flowed([self.small(offset) for offset in into[:MOST_CHIPS]], WIDTH_OF_CHIPS, 4))
            blocks.append(stacked(parts))
        return blocks

    def entry_name(self, offset: int) -> str:
        if offset in self.nodes:
            node = self.nodes[offset]
            return f"{kind_of(node)} at {offset:#x}" + (f", ID {node.id}" if node.flags & ID_VALID else "")
        return f"cache at {offset:#x}"

    def small(self, offset: int) -> Block:
        """A node or a cache as a small box with its offset."""
        name, own = self.entry_name(offset), f"pptt-{offset:#x}"
        width = width_of(name, 11) + self.marks.width(own) + 2 * PADDING
        is_node = offset in self.nodes

        def draw(x, y):
            is_first = not self.marks.is_drawn(own)
            told = self.told(self.nodes[offset]) if is_node else cache_told(self.caches[offset])
            parts = [title(f"{told}{self.marks.named(own)}")]
            parts.append(box(x, y, width, 24, f"{'node' if is_node else 'cache'}{self.marks.kind(own)}", rx=5))
            parts += [label(x + PADDING, y + 16, name, "small"), self.marks.badge(x + width - 3, y + 4, own)]
            id_ = self.marks.drawn(own) if is_first else None
            return element("g", *parts, id=id_, class_="node" if is_node else "chip", data_count=1)

        return Block(width, 26, draw)

    def ring(self, cycle) -> Block:
        """The entries of a cycle on a circle, each with an arrow to the one that it names."""
        boxes = [self.small(offset) for offset in cycle[:MOST_IN_RING]]
        more = len(cycle) - len(boxes)
        boxes += [text_block(f"and {more:,} more")] if more else []
        widest = max(block.width for block in boxes)
        radius = max(54, len(boxes) * 15)
        width, height = 2 * radius + widest + 8, 2 * radius + 40

        def at(place):
            angle = 2 * math.pi * place / len(boxes) - math.pi / 2
            return width / 2 + radius * math.cos(angle), height / 2 + radius * math.sin(angle)

        def draw(x, y):
            parts = [element("circle", cx=x + width / 2, cy=y + height / 2, r=radius, class_="ring")]
            for place, block in enumerate(boxes):
                left, top = at(place)
                parts += [arrow(x + width / 2, y + height / 2, radius, (place + 0.5) / len(boxes))]
                parts.append(block.draw(x + left - block.width / 2, y + top - block.height / 2))
            return element("g", *parts, class_="cycle")

        return Block(width, height, draw)

    # ---- the picture

    def unnamed(self) -> list:
        """Caches to which no node leads."""
        named = {offset for node in self.nodes.values() for resource in node.resources for offset in self.chain(resource)}
        return [offset for offset in self.caches if offset not in named]

    def drawn(self) -> str:
        reached = set(self.reached)
        unreached = {node.offset: node.parent for node in self.nodes.values() if node.offset not in reached}
        looped = {cache.offset: cache.next for cache in self.caches.values() if cache.next in self.caches}
        rings = flowed(self.rings(unreached, "node") + self.rings(looped, "cache"), WIDTH - 20, 24)
        unnamed = [offset for offset in self.unnamed() if not self.marks.is_drawn(f"pptt-{offset:#x}")]
        blocks = [self.blocks(self.roots, WIDTH - 20, 0), rings]
        if unnamed:
            blocks.append(text_block(f"{counted(len(unnamed), 'cache')} that no node names:"))
            blocks.append(flowed([self.chip(one) for one in unnamed[:MOST_CHIPS]], WIDTH - 20, 4))
        whole = stacked(blocks, 14)
        size = max(WIDTH, whole.width + 12), whole.height + 12
        drawing = picture("topology", *size, "Processors and caches", [whole.draw(4, 4)], self.described(len(unreached)))
        places = [f"pptt-{offset:#x}" for offset in (*self.nodes, *self.caches)]
        return drawing + found_here(self.marks, places, "the entry at") + note(self.summary(len(unreached)))

    def described(self, unreached: int) -> str:
        counts = {}
        for node in self.nodes.values():
            counts[kind_of(node)] = counts.get(kind_of(node), 0) + 1
        words = listed(f"{count:,} of kind {kind}" for kind, count in counts.items())
        cycle = f" {counted(unreached, 'node')} are in cycles or lead into one." if unreached else ""
        return f"{counted(len(self.nodes), 'node')}: {words}; {counted(len(self.caches), 'cache')}.{cycle}"

    def summary(self, unreached: int) -> str:
        words = [f"{counted(len(self.nodes), 'node')} and {counted(len(self.caches), 'cache')}; subtrees that are alike are drawn once."]
        if self.left_out:
            words.append(f"{counted(self.left_out, 'node')} are not drawn.")
        if unreached:
            words.append(f"{counted(unreached, 'node')} are in cycles or lead into one.")
        return " ".join(words)


def arrow(x: float, y: float, radius: float, share: float) -> str:
    """The head of an arrow on a circle, at a share of the way round from the top."""
    angle = 2 * math.pi * share - math.pi / 2
    tip = x + radius * math.cos(angle), y + radius * math.sin(angle)

    def beside(turn):
        back = angle - math.pi / 2 + turn
        return tip[0] + 9 * math.cos(back), tip[1] + 9 * math.sin(back)

    return line(path("M", *beside(0.5), "L", *tip, "L", *beside(-0.5), "z"), "arrow")


def kind_of(node) -> str:
    if node.flags & PACKAGE:
        return "package"
    if node.flags & THREAD:
        return "thread"
    return "processor" if node.flags & LEAF else "group"


def cache_text(cache) -> str:
    size = size_of(cache.size) if cache.flags & SIZE_VALID else "size unknown"
    return size + (f" {CACHE_TYPES[cache.attributes >> 2 & 3]}" if cache.flags & TYPE_VALID else "")


def cache_told(cache) -> str:
    following = f", then the cache at {cache.next:#x}" if cache.next else ""
    return f"cache at {cache.offset:#x}: {cache_text(cache)}, {cache.sets} sets, {cache.ways} ways, lines of {cache.line} bytes{following}"


def drawn(contents, marks) -> str:
    return Topology(contents, marks).drawn() if contents.nodes or contents.caches else ""
