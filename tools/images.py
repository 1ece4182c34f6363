"""Reads a memory's words as docs/FORMATS.md has them: the form of an image file, kinds of words, nodes, and the tree.
tools/draw-image, tools/trace-page and tools/try-pages share it. It is written from that page alone, so it tries it."""
import struct

HEAD_BYTES, MAGIC, VERSION = 20, b"BZIMAGE\n", 2
SUPERBLOCK_WORDS, DESCRIPTOR_WORDS, NODE_WORDS, FENCE_WORDS, FIRST_META, RECORD_WORDS = 16, 16, 256, 8, 18, 238
LOW_FENCE, HIGH_FENCE = 2, 10
MOST_NODES, MOST_SWAPS, MOST_LEVELS = 16384, 65536, 12
SUCCEEDED = 2
# how a tree is drawn: the sizes of boxes, and colours
WIDE, NARROW, TALL, GAP = 96, 18, 66, 44
COLOURS = {"live": "#3a7d44", "dead": "#c9b458", "front": "#8a8f98", "free": "#eceff1", "held": "#d62828"}
FROZEN, PLAIN = ("#d6e6ff", "#2456a6"), ("#ffffff", "#5f6b76")
LEGEND = (("live", "live"), ("dead", "dead"), ("free", "free"), ("held", "held or dirty"))


class Refused(Exception):
    """The bytes are no image, or its tree is none."""


def bits(word, low, high):
    return word >> low & (1 << high - low + 1) - 1


class Image:
    """The words of a memory, and what they stand for."""

    def __init__(self, nodes, swaps, words):
        self.nodes, self.swaps, self.words = nodes, swaps, words

    def entry(self, swap, number):
        at = SUPERBLOCK_WORDS + DESCRIPTOR_WORDS * swap + 2 + 3 * number
        return self.words[at : at + 3]

    def pointed(self, address, swap):
        """The entry of a swap whose target is the address."""
        at = SUPERBLOCK_WORDS + DESCRIPTOR_WORDS * swap
        for number in range(min(self.words[at + 1], 4)):
            found = self.entry(swap, number)
            if found[0] == address:
                succeeded = bits(self.words[at], 0, 60) == SUCCEEDED
                return found[2] if succeeded else found[1]
        raise Refused(f"word {address}: a pointer to swap {swap}, which does not name it")

    def resolve(self, address):
        """What a word stands for, and whether a swap holds it."""
        word, kind = self.words[address], bits(self.words[address], 61, 63)
        if kind == 0:
            return word, False
        if kind == 4:
            return bits(word, 0, 60), True
        swap = bits(word, 0, 15)
        if kind not in (1, 2) or swap >= self.swaps:
            raise Refused(f"word {address}: {word:#018x} stands for nothing")
        if kind == 2:
            return self.pointed(address, swap), True
        return self.entry(swap, bits(word, 16, 17))[1], True

    def node(self, slot):
        if slot >= self.nodes:
            raise Refused(f"slot {slot}: there are {self.nodes}")
        first = SUPERBLOCK_WORDS + DESCRIPTOR_WORDS * self.swaps + NODE_WORDS * slot
        found = [self.resolve(first + i) for i in range(NODE_WORDS)]
        return Node(slot, [word for word, _ in found], [i for i, (_, held) in enumerate(found) if held])


def word_count(nodes, swaps):
    """How many words a memory of these sizes has."""
    return SUPERBLOCK_WORDS + DESCRIPTOR_WORDS * swaps + NODE_WORDS * nodes


def read_image(data):
    """The image of an image file's bytes."""
    if len(data) < HEAD_BYTES:
        raise Refused("short: fewer than 20 bytes")
    if data[:8] != MAGIC:
        raise Refused("magic: no image file")
    version, nodes, swaps = struct.unpack_from("<III", data, 8)
    if version != VERSION:
        raise Refused(f"version: {version}")
    if not (1 <= nodes <= MOST_NODES and 1 <= swaps <= MOST_SWAPS):
        raise Refused(f"sizes: {nodes} nodes, {swaps} swaps")
    count = word_count(nodes, swaps)
    if len(data) != HEAD_BYTES + 8 * count:
        raise Refused(f"{'short' if len(data) < HEAD_BYTES + 8 * count else 'long'}: {len(data)} bytes, {HEAD_BYTES + 8 * count} expected")
    return Image(nodes, swaps, struct.unpack_from(f"<{count}Q", data, HEAD_BYTES))


def unpacked(words, length):
    """The bytes that stand seven to a word, the first one highest."""
    return b"".join(word.to_bytes(8, "big")[1:] for word in words)[:length]


def packed_len(length):
    return (length + 6) // 7


def spelled(key):
    plain = b"ABCDEFGHIJKLMNOPQRSTUVWXYZabcdefghijklmnopqrstuvwxyz0123456789._:/-"
    return "".join(chr(b) if b in plain else f"%{b:02X}" for b in key)


class Record:
    """What one metadata word names."""

    def __init__(self, words, meta, level):
        self.visible, self.offset = bits(meta, 60, 60) == 1, bits(meta, 32, 59)
        key, total = bits(meta, 16, 31), bits(meta, 0, 15)
        at = self.offset + packed_len(key)
        self.size = packed_len(key) + (1 if level else packed_len(total - key))
        self.named = self.offset > 0 and self.offset + self.size <= NODE_WORDS
        self.key = unpacked(words[self.offset : at], key) if self.visible and self.named else b""
        self.child = words[at] - 1 if level and self.visible and at < NODE_WORDS else None


class Node:
    def __init__(self, slot, words, held):
        status, header = words[0], words[1]
        self.slot, self.words, self.held, self.children = slot, words, held, []
        self.frozen, self.count, self.block = bits(status, 60, 60) == 1, bits(status, 52, 59), bits(status, 42, 51)
        self.level = bits(header, 0, 7)
        if self.count + self.block > RECORD_WORDS:
            raise Refused(f"slot {slot}: {self.count} metadata words and a block of {self.block} words")
        low, high = bits(header, 8, 15), bits(header, 16, 23)
        self.low = unpacked(words[LOW_FENCE : LOW_FENCE + FENCE_WORDS], low) if low else None
        self.high = unpacked(words[HIGH_FENCE : HIGH_FENCE + FENCE_WORDS], high) if high else None
        self.records = [Record(words, words[FIRST_META + i], self.level) for i in range(self.count)]
        self.visible = sorted((r for r in self.records if r.visible), key=lambda r: r.key)

    def live(self):
        return sum(1 + r.size for r in self.visible)

    def runs(self):
        """The colours of its 256 words: those of live records, those of others, and the free ones."""
        colours = ["front"] * FIRST_META + ["free"] * (NODE_WORDS - FIRST_META)
        for i in range(NODE_WORDS - self.block, NODE_WORDS):
            colours[i] = "dead"
        for i, record in enumerate(self.records):
            colours[FIRST_META + i] = "live" if record.visible else "dead"
            if record.visible and record.named:
                colours[record.offset : record.offset + record.size] = ["live"] * record.size
        return colours

    def range_text(self):
        ends = [spelled(key) if key is not None else end for key, end in ((self.low, "-∞"), (self.high, "∞"))]
        return f"[{ends[0]}, {ends[1]})"

    def told(self):
        lines = [f"slot {self.slot}, level {self.level}{', frozen' if self.frozen else ''}", f"range {self.range_text()}"]
        lines.append(f"{len(self.visible)} visible of {counted(self.count, 'record')}, {counted(self.live(), 'live word')}, block {self.block}")
        if self.held:
            lines.append(f"held by swaps: words {', '.join(map(str, self.held))}")
        return "\n".join(lines)


def walk(image):
    """The reached nodes, level by level from the root, each with its children."""
    root = image.resolve(1)[0] - 1
    top = image.node(root)
    if top.level >= MOST_LEVELS:
        raise Refused(f"slot {root}: level {top.level}")
    levels, seen = [[top]], {root}
    for level in range(top.level, 0, -1):
        below = []
        for node in levels[-1]:
            for record in node.visible:
                if record.child is None or record.child in seen:
                    raise Refused(f"slot {node.slot}: a child that is none, or is reached twice")
                seen.add(record.child)
                child = image.node(record.child)
                if child.level != level - 1:
                    raise Refused(f"slot {child.slot}: level {child.level} below level {level}")
                node.children.append(child)
                below.append(child)
        levels.append(below)
    return levels


def counted(number, one, more=None):
    """A number with what it counts: 1 pair, 2 pairs."""
    return f"{number} {one if number == 1 else more or one + 's'}"
