"""Images written node by node from docs/FORMAT.md, sound ones and such that are not: bench/share_cases and
bench/share_images stand on it. What each group counts and each node owes is found here by plain lists."""
import struct

from walk import DATA, FULL, SECTOR, SLOTS_AT, crc32c

EXTENTS, TOP, QUOTA = 2, 5, 8


def key_text(key):
    return struct.pack("<QBQ", *key)


def inode_item(size, taken, generation=1):
    return struct.pack("<4Q", generation, generation, size, taken) + bytes(128)


def piece_item(length, extent, whole, offset=0, generation=1):
    return struct.pack("<QQBBHBQQQQ", generation, whole, 0, 0, 0, 1, extent, whole, offset, length)


def root_item(generation, address, level, last=0):
    body = bytearray(439)
    body[160:168], body[176:184], body[200:208] = (struct.pack("<Q", it) for it in (generation, address, last))
    body[216], body[238] = 1, level
    return bytes(body)


class Crafted:
    def __init__(self, nodesize, slots, sectors, generation=1):
        self.nodesize, self.slots, self.sectors, self.generation = nodesize, slots, sectors, generation
        self.cap = nodesize - 101
        self.nodes = {}  # address: [owner, generation, level, items or pointers]
        self.full = set()
        self.roots = {}  # subvolume: the root node's address
        self.groups = set()  # groups that are no live subvolume's
        self.pairs = set()  # relations, each (member, parent)
        self.limits = {}  # of a group (referenced, exclusive), each a number or None
        self.on = True  # whether quota is on
        self.quota_extra = {}  # items of the quota tree put in place of those that stand for the groups
        self.next = 0
        self.extra = {}  # items of the extent tree put in place of those owed
        self.stored = {}  # counters put in place of those counted

    def own(self):
        """How many slots the nodes of subvolumes take; the other trees come behind them."""
        return max((address - SLOTS_AT) // self.nodesize for address in self.nodes) + 1

    def slot(self):
        self.next += 1
        return SLOTS_AT + (self.next - 1) * self.nodesize

    def leaf(self, owner, items, generation=None, address=None):
        address = address or self.slot()
        self.nodes[address] = [owner, generation or self.generation, 0, sorted(items)]
        return address

    def inner(self, owner, children, generation=None, address=None):
        address = address or self.slot()
        level = self.nodes[children[0]][2] + 1
        self.nodes[address] = [owner, generation or self.generation, level, children]
        return address

    def first_key(self, address):
        _, _, level, below = self.nodes[address]
        return self.first_key(below[0]) if level else below[0][0]

    # ---- what is reached, owed and counted

    def reached(self, address, found=None):
        found = {} if found is None else found
        if address not in found:
            found[address] = True
            if self.nodes[address][2]:
                for child in self.nodes[address][3]:
                    self.reached(child, found)
        return found

    def extents_of(self, address):
        _, _, level, items = self.nodes[address]
        return [] if level else [(struct.unpack_from("<QQ", body, 21)) for key, body in items if key[1] == 108]

    def counters(self):
        reach, shared = {}, {}
        by_root = {}
        for sub, root in self.roots.items():
            if root not in by_root:
                nodes = self.reached(root)
                elements = {(at, self.nodesize) for at in nodes}
                for at in nodes:
                    elements.update(self.extents_of(at))
                by_root[root] = elements
            reach[sub] = by_root[root]
            for it in by_root[root]:
                shared[it] = shared.get(it, 0) + 1
        counted = {}
        for group in {*self.groups, *self.roots}:
            members = [sub for sub in self.roots if group in self.above(sub)]
            times = {}
            for sub in members:
                for it in reach[sub]:
                    times[it] = times.get(it, 0) + 1
            counted[group] = (sum(it[1] for it in times), sum(it[1] for it in times if times[it] == shared[it]))
        return counted

    def above(self, group):
        """The group and all that it leads to."""
        found = {group}
        for level in range(1, 65536):
            more = {parent for member, parent in self.pairs if member in found} - found
            if not more:
                return found
            found |= more

    def quota_items(self):
        counters = {**self.counters(), **self.stored}
        items = {(0, 240, 0): struct.pack("<4Q", 1, self.generation, 1, 0)}
        for group, (rfer, excl) in counters.items():
            most = self.limits.get(group, (None, None))
            flags = sum(1 << i for i in range(2) if most[i] is not None)
            items[0, 242, group] = struct.pack("<5Q", self.generation, rfer, rfer, excl, excl)
            items[0, 244, group] = struct.pack("<5Q", flags, most[0] or 0, most[1] or 0, 0, 0)
        for member, parent in self.pairs:
            items[member, 246, parent] = items[parent, 246, member] = b""
        for key, body in self.quota_extra.items():
            if body is None:
                items.pop(key, None)
            else:
                items[key] = body
        return sorted(items.items())

    def extent_items(self):
        live, owed, lengths = {}, {}, {}
        for root in set(self.roots.values()):
            self.reached(root, live)

        def owe(address, name):
            known = owed.setdefault(address, {})
            known[name] = known.get(name, 0) + 1

        for sub, root in self.roots.items():
            owe(root, (176, sub))
        for address in live:
            owner, _, level, below = self.nodes[address]
            full = address in self.full
            if level:
                for child in below:
                    owe(child, (182, address) if full else (176, owner))
                continue
            for (ino, kind, position), body in below:
                if kind == 108:
                    extent, whole, skip = struct.unpack_from("<QQQ", body, 21)
                    lengths[extent] = whole
                    owe(extent, (184, address) if full else (178, owner, ino, (position - skip) % (1 << 64)))
        items = []
        for address in owed:
            count = sum(owed[address].values())
            if address in live:
                _, made, level, _ = self.nodes[address]
                flags = 2 | (FULL if address in self.full else 0)
                items.append(((address, 169, level), struct.pack("<QQQ", count, made, flags)))
            else:
                items.append(((address, 168, lengths[address]), struct.pack("<QQQ", count, 1, 1)))
            numbered = 0
            for name, times in sorted(owed[address].items()):
                if name[0] == 178:
                    items.append(((address, 178, numbered), struct.pack("<QQQI", *name[1:], times)))
                    numbered += 1
                else:
                    items.append(((address, *name), struct.pack("<I", times) if name[0] == 184 else b""))
        known = {key: body for key, body in items}
        for key, body in self.extra.items():
            if body is None:
                known.pop(key, None)
            else:
                known[key] = body
        return sorted(known.items())

    # ---- texts

    def node_text(self, address, owner, generation, level, below):
        text = bytearray(self.nodesize)
        text[48:56], text[80:88], text[88:96] = (struct.pack("<Q", it) for it in (address, generation, owner))
        text[96:101] = struct.pack("<IB", len(below), level)
        at, end = 101, self.nodesize
        for it in below:
            if level:
                text[at : at + 33] = key_text(it[0]) + struct.pack("<QQ", it[1], it[2])
                at += 33
                continue
            key, body = it
            end -= len(body)
            text[at : at + 25] = key_text(key) + struct.pack("<II", end - 101, len(body))
            text[end : end + len(body)] = body
            at += 25
        assert at <= end, "a node is too full"
        text[:4] = struct.pack("<I", crc32c(text[32:]))
        return bytes(text)

    def tree(self, owner, items, texts):
        """The root of a tree of these items, in slots of its own, cut into nodes that are alike full."""
        generation = self.generation
        rows = [(key, len(body) + 25, (key, body)) for key, body in items]
        level = 0
        while True:
            used, parts, part, goal = sum(it[1] for it in rows), [], [], 0
            count = -(-used // (self.cap - 500)) if used > self.cap else 1
            taken = 0
            for it in rows:
                if part and len(parts) + 1 < count and taken + it[1] // 2 > used * (len(parts) + 1) // count:
                    parts.append(part)
                    part = []
                part.append(it)
                taken += it[1]
            parts.append(part)
            above = []
            for part in parts:
                address = self.slot()
                texts[address] = self.node_text(address, owner, generation, level, [it[2] for it in part])
                key = part[0][0] if part else (0, 0, 0)
                above.append((key, 33, (key, address, generation)))
            if len(above) == 1:
                return above[0][2][1], level
            rows, level = above, level + 1

    def texts(self):
        """The text of each node and superblock by its place."""
        texts, self.next = {}, self.own()
        for address, (owner, generation, level, below) in self.nodes.items():
            if level:
                below = [(self.first_key(child), child, self.nodes[child][1]) for child in below]
            texts[address] = self.node_text(address, owner, generation, level, below)
        roots = []
        if self.on:
            roots.append(((QUOTA, 132, 0), root_item(self.generation, *self.tree(QUOTA, self.quota_items(), texts))))
        roots.append(((EXTENTS, 132, 0), root_item(self.generation, *self.tree(EXTENTS, self.extent_items(), texts))))
        for sub, root in self.roots.items():
            roots.append(((sub, 132, 0), root_item(self.nodes[root][1], root, self.nodes[root][2])))
        root, _ = self.tree(1, sorted(roots), texts)
        total = DATA + SECTOR * self.sectors
        for place in (65536, 67108864):
            text = bytearray(SECTOR)
            text[48:56] = struct.pack("<Q", place)
            text[64:72] = b"QGRPIMG1"
            for at, it in ((72, self.generation), (80, root), (112, total), (2048, self.slots), (2056, self.sectors)):
                text[at : at + 8] = struct.pack("<Q", it)
            text[144:152] = struct.pack("<II", SECTOR, self.nodesize)
            text[2064] = 1
            text[:4] = struct.pack("<I", crc32c(text[32:]))
            texts[place] = bytes(text)
        return texts

    def write(self, path):
        with open(path, "wb") as file:
            file.truncate(DATA + SECTOR * self.sectors)
            for place, text in self.texts().items():
                file.seek(place)
                file.write(text)

    def lines(self, base=None):
        """The lines of a case that make this image of an empty disk, or of the image of another one."""
        lines = [] if base else [f"extend {DATA + SECTOR * self.sectors}"]
        before = base.texts() if base else {}
        for place, text in sorted(self.texts().items()):
            old = before.get(place, bytes(len(text)))
            if old != text:
                lines += changed(place, old, text)
                lines.append(f"checksum {place} {len(text)}")
        return lines


def changed(place, old, new):
    """Lines `set` and `fill` for what differs, but for the checksum."""
    at, lines = 32, []
    while at < len(new):
        if old[at] == new[at]:
            at += 1
            continue
        end = at + 1
        same = 0
        while end < len(new) and same < 6:
            same = same + 1 if old[end] == new[end] else 0
            end += 1
        end -= same
        part = new[at:end]
        if len(part) > 8 and len(set(part)) == 1:
            lines.append(f"fill {place + at} {len(part)} {part[0]:02x}")
        else:
            lines += parted(place + at, part)
        at = end
    return lines


def parted(place, part):
    lines = []
    for at in range(0, len(part), 48):
        lines.append(f"set {place + at} {part[at : at + 48].hex()}")
    return lines
