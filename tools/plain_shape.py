"""A plain reader of the words of a memory: its first broken rule, or its tree and its pairs.
It follows docs/FORMATS.md, and shares nothing with the program. tools/flip-images and tools/judge-traces use it."""

SUPERBLOCK_WORDS, DESCRIPTOR_WORDS, NODE_WORDS, FENCE_WORDS, HIGH_FENCE, FIRST_META, RECORD_WORDS, LONGEST = 16, 16, 256, 8, 10, 18, 238, 56
VALUES, SUCCEEDED, FORMAT, MOST_LEVEL = 1 << 61, 2, 2, 11


class Fault(Exception):
    """The rule that an image breaks, and the place that is told with it."""

    def __init__(self, rule, place=0):
        super().__init__(rule, place)
        self.rule, self.place = rule, place


def bits(word, place, width):
    return word >> place & (1 << width) - 1


def kind(word):
    control = word >> 61
    if control == 0:
        return ("value", word)
    if control == 4:
        return ("dirty", word - (1 << 63))
    if control == 2 and bits(word, 16, 45) == 0:
        return ("swap", bits(word, 0, 16))
    if control == 1 and 1 <= bits(word, 18, 7) <= 64:
        return ("tag", bits(word, 0, 16), bits(word, 16, 2))
    return None


def packed_words(length):
    return (length + 6) // 7


def unpack(words, length):
    """The bytes of these words, or None where they are no plain packing of so many."""
    if any(w >> 56 for w in words):
        return None
    data = b"".join(w.to_bytes(7, "big") for w in words)
    return None if any(data[length:]) else data[:length]


def meta(word):
    if word >> 61 or bits(word, 16, 16) > bits(word, 0, 16):
        return None
    shown, offset, key, total = bits(word, 60, 1), bits(word, 32, 28), bits(word, 16, 16), bits(word, 0, 16)
    if shown and not offset:
        return None
    state = "visible" if shown else "reserved" if offset else "deleted" if word else "unused"
    return state, offset, key, total


def weight(m):
    return packed_words(m[2]) + packed_words(m[3] - m[2])


def fence(words, at, length, bound):
    if bound is None:
        return length == 0 and not any(words[at : at + FENCE_WORDS])
    return length == len(bound) and unpack(words[at : at + packed_words(length)], length) == bound


class Node:
    """A reached node: its slot, level and range, whether it is frozen, its records, and the words that they take."""

    def __init__(self, slot, level, low, high):
        self.slot, self.level, self.low, self.high = slot, level, low, high
        self.frozen, self.records, self.taken, self.above, self.place = False, [], 0, None, 0

    def holds(self, key):
        return (self.low is None or self.low <= key) and (self.high is None or key < self.high)


class Plain:
    """The words of a memory of these sizes."""

    def __init__(self, nodes, swaps, words):
        self.nodes, self.swaps, self.words = nodes, swaps, words
        self.start = SUPERBLOCK_WORDS + DESCRIPTOR_WORDS * swaps

    def descriptor(self, swap):
        at = SUPERBLOCK_WORDS + DESCRIPTOR_WORDS * swap
        entries = [self.words[at + 2 + 3 * i : at + 5 + 3 * i] for i in range(4)]
        return self.words[at] % (1 << 63), self.words[at + 1], entries

    def lawful(self, a):
        what = kind(self.words[a])
        if what is None:
            return False
        if SUPERBLOCK_WORDS <= a < self.start:
            if (a - SUPERBLOCK_WORDS) % DESCRIPTOR_WORDS:
                return what[0] == "value"
            return what[0] in ("value", "dirty") and what[1] <= 3
        if a < SUPERBLOCK_WORDS and a not in (1, 2):
            return what[0] == "value"
        if what[0] in ("value", "dirty"):
            return True
        if what[1] >= self.swaps:
            return False
        status, count, entries = self.descriptor(what[1])
        if status == 0 or not 1 <= count <= 4:
            return False
        entries = entries[:count]
        if any(e[1] >= VALUES or e[2] >= VALUES for e in entries):
            return False
        if what[0] == "swap":
            return any(e[0] == a for e in entries)
        return what[2] < count and entries[what[2]][0] == a

    def resolve(self, a):
        what = kind(self.words[a])
        if what[0] in ("value", "dirty"):
            return what[1]
        status, count, entries = self.descriptor(what[1])
        if what[0] == "tag":
            return entries[what[2]][1]
        entry = next(e for e in entries[:count] if e[0] == a)
        return entry[2] if status == SUCCEEDED else entry[1]

    def read_node(self, node):
        """Reads the records of a node that breaks no rule: place, key, and child pointer or payload."""
        first = self.start + NODE_WORDS * node.slot
        raw = self.words[first : first + NODE_WORDS]
        words = [self.resolve(first + i) for i in range(NODE_WORDS)]
        header, status, level = words[1], words[0], node.level
        if header >> 32 or bits(header, 0, 8) != level or level > MOST_LEVEL:
            raise Fault("Level")
        if not fence(words, 2, bits(header, 8, 8), node.low) or not fence(words, HIGH_FENCE, bits(header, 16, 8), node.high):
            raise Fault("Fence")
        frozen, count, block, dead, ordered = bits(status, 60, 1), bits(status, 52, 8), bits(status, 42, 10), bits(status, 32, 10), bits(header, 24, 8)
        if status >> 61 or count + block > RECORD_WORDS or ordered > count or any(words[FIRST_META + count : NODE_WORDS - block]):
            raise Fault("Status")
        metas = [meta(w) for w in words[FIRST_META : FIRST_META + count]]
        if dead + sum(weight(m) for m in metas if m and m[0] == "visible") != block:
            raise Fault("Status")
        if level and (frozen or not count or dead or ordered != count):
            raise Fault("Status")
        keys, used = [], set()
        for j, m in enumerate(metas):
            if m is None or m[0] == "unused" or level and m[0] != "visible":
                raise Fault("Record")
            state, offset, key, total = m
            if level:
                if total != key + 7 or (key if j == 0 else not 1 <= key <= LONGEST):
                    raise Fault("Record")
            elif not 1 <= key <= LONGEST or total - key > LONGEST:
                raise Fault("Record")
            if state == "deleted":
                continue
            extent = range(offset, offset + weight(m))
            if offset < NODE_WORDS - block or extent.stop > NODE_WORDS or used & set(extent):
                raise Fault("Record")
            used |= set(extent)
            if state != "visible":
                continue
            middle = offset + packed_words(key)
            parts = [(offset, middle, key)] + ([] if level else [(middle, extent.stop, total - key)])
            for start, end, length in parts:
                if raw[start:end] != words[start:end] or unpack(words[start:end], length) is None:
                    raise Fault("Record")
            keys.append((j, unpack(words[offset:middle], key), words[middle] if level else unpack(words[middle : extent.stop], total - key)))
            node.taken += 1 + weight(m)
        ordered_keys = [k for j, k, _ in keys if j < ordered]
        if any(a >= b for a, b in zip(ordered_keys, ordered_keys[1:])):
            raise Fault("Order")
        for j, k, _ in keys:
            if level and j == 0:
                continue
            if node.low is not None and (k <= node.low if level else k < node.low) or node.high is not None and k >= node.high:
                raise Fault("Key")
        if len({k for _, k, _ in keys}) < len(keys):
            raise Fault("Key")
        if level and any(not 1 <= pointer <= self.nodes for _, _, pointer in keys):
            raise Fault("Child")
        node.frozen, node.records = bool(frozen), keys

    def tree(self):
        """The reached nodes, each behind the one above it, where no rule is broken."""
        words = self.words
        if words[0] != FORMAT or words[3] != self.nodes or words[4] != self.swaps or any(words[5:SUPERBLOCK_WORDS]):
            raise Fault("Super")
        for a in range(len(words)):
            if words[a] and not self.lawful(a):
                raise Fault("Word", a)
        pointer, status = self.resolve(1), self.resolve(2)
        if not 1 <= pointer <= self.nodes or status >> 32:
            raise Fault("Root")
        level = bits(self.resolve(self.start + NODE_WORDS * (pointer - 1) + 1), 0, 8)
        stack, found, seen = [Node(pointer - 1, level, None, None)], [], set()
        while stack:
            node = stack.pop()
            try:
                if node.slot in seen:
                    raise Fault("Twice")
                seen.add(node.slot)
                self.read_node(node)
            except Fault as fault:
                raise Fault(fault.rule, node.slot) from None
            found.append(node)
            if node.level:
                bounds = [node.low, *(k for _, k, _ in node.records[1:]), node.high]
                below = [Node(p - 1, node.level - 1, bounds[i], bounds[i + 1]) for i, (_, _, p) in enumerate(node.records)]
                for place, child in enumerate(below):
                    child.above, child.place = node, place
                node.children = below
                stack += reversed(below)
        return found


def pairs_of(tree):
    """The pairs of the leaves of a tree."""
    return sorted((key, payload) for node in tree if node.level == 0 for _, key, payload in node.records)
