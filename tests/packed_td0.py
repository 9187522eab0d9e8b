"""TD0 files as Teledisk packs them, for tests: what stands behind the head goes through the adaptive Huffman code of LZHUF (Haruyasu Yoshizaki's of 1988).

Every byte is written as itself, so nothing is said by what stood before.
"""

# the codes of bytes and of lengths, and the nodes of the tree, of which the last one is the root
CODES = 256 - 2 + 60
NODES = 2 * CODES - 1
ROOT = NODES - 1
MOST = 0x8000


class Tree:
    """The tree, whose nodes stand in the order of their counts; the two below a node stand side by side, and a leaf's place is its code and NODES."""

    def __init__(self):
        self.counts = [1] * CODES + [0] * (NODES - CODES) + [0xFFFF]
        self.below = [*range(NODES, NODES + CODES)] + [0] * (NODES - CODES)
        self.above = [0] * (NODES + CODES)
        self.above[NODES:] = range(CODES)
        for node, first in zip(range(CODES, NODES), range(0, NODES, 2)):
            self.counts[node] = self.counts[first] + self.counts[first + 1]
            self.below[node] = first
            self.above[first] = self.above[first + 1] = node

    def bits(self, code):
        """The bits of a code, whose count rises then."""
        found, node = [], self.above[code + NODES]
        while node != ROOT:
            found.append(node & 1)
            node = self.above[node]
        self.count(code)
        return found[::-1]

    def count(self, code):
        if self.counts[ROOT] == MOST:
            self.halve()
        node = self.above[code + NODES]
        while True:
            self.counts[node] += 1
            node = self.above[self.moved_up(node)]
            if node == 0:
                return

    def moved_up(self, node):
        """Where a node stands in the order, now that its count has risen."""
        last, count = node, self.counts[node]
        while count > self.counts[last + 1]:
            last += 1
        if last != node:
            self.counts[node], self.counts[last] = self.counts[last], count
            self.below[node], self.below[last] = self.below[last], self.below[node]
            self.tie(node)
            self.tie(last)
        return last

    def tie(self, node):
        """Tells what is below a node that it is."""
        self.above[self.below[node]] = node
        if self.below[node] < NODES:
            self.above[self.below[node] + 1] = node

    def halve(self):
        """Halves the counts of the leaves, and makes the tree of them anew."""
        leaves = [((self.counts[it] + 1) // 2, self.below[it]) for it in range(NODES) if self.below[it] >= NODES]
        nodes = leaves[:]
        for first in range(0, NODES - 1, 2):
            count = nodes[first][0] + nodes[first + 1][0]
            place = len(nodes)
            while count < nodes[place - 1][0]:
                place -= 1
            nodes.insert(place, (count, first))
        self.counts[:NODES], self.below = [it for it, _ in nodes], [it for _, it in nodes]
        for node in range(NODES):
            self.tie(node)


def check_of(data):
    """The check of a TD0's head."""
    found = 0
    for byte in data:
        found ^= byte << 8
        for _ in range(8):
            found = (found << 1 ^ 0xA097 if found & 0x8000 else found << 1) & 0xFFFF
    return found.to_bytes(2, "little")


def packed(data):
    """A TD0 that isn't packed, packed."""
    tree = Tree()
    bits = "".join(str(bit) for byte in data[12:] for bit in tree.bits(byte))
    bits += "0" * (-len(bits) % 8)
    head = b"td" + data[2:10]
    return head + check_of(head) + int(bits, 2).to_bytes(len(bits) // 8, "big")
