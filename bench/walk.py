#!/usr/bin/env python3
"""Judges an image and counts its groups by docs/FORMAT.md alone: python3 bench/walk.py IMAGE

It prints `sound GEN` and what each group counts (group, referenced, exclusive), or the first failure as the program
would tell it. It is a plain program of its own, which shares nothing with the crates: cases take their counts from it.
Each subvolume is walked by itself, and who reaches what is kept as a list for each element.
"""
import os
import struct
import sys

SECTOR, DATA, SLOTS_AT, PLACES = 4096, 67174400, 1048576, (65536, 67108864)
ROOT, EXTENTS, TOP, QUOTA = 1, 2, 5, 8
INODE, DATA_PIECE, ROOT_ITEM, EXTENT, METADATA = 1, 108, 132, 168, 169
TREE_REF, DATA_REF, SHARED_TREE, SHARED_DATA = 176, 178, 182, 184
STATUS, INFO, LIMIT, RELATION = 240, 242, 244, 246
OF_TREE = {ROOT: {132}, EXTENTS: {168, 169, 176, 178, 182, 184}, QUOTA: {240, 242, 244, 246}}
LENGTHS = {1: 160, 108: 53, 132: 439, 168: 24, 169: 24, 176: 0, 178: 28, 182: 0, 184: 4, 240: 32, 242: 40, 244: 40, 246: 0}
FULL = 256

TABLE = []
for byte in range(256):
    for _ in range(8):
        byte = byte >> 1 ^ (0x82F63B78 if byte & 1 else 0)
    TABLE.append(byte)


def crc32c(text):
    crc = 0xFFFFFFFF
    for byte in text:
        crc = TABLE[(crc ^ byte) & 255] ^ crc >> 8
    return crc ^ 0xFFFFFFFF


def number(text, at, size=8):
    return int.from_bytes(text[at : at + size], "little")


def is_subvolume(tree):
    return tree == TOP or 256 <= tree < 1 << 48


class Broken(Exception):
    def __init__(self, rule, address):
        super().__init__(f"broken {rule} {address}")


class Node:
    """What a node's bytes say: its header, and its items as (key, body) or its pointers as (key, child, generation)."""

    def __init__(self, text):
        self.place, self.generation, self.owner = number(text, 48), number(text, 80), number(text, 88)
        self.count, self.level = number(text, 96, 4), text[100]
        self.items, self.pointers = [], []


class Image:
    def __init__(self, path):
        self.file = open(path, "rb")
        self.length = os.fstat(self.file.fileno()).st_size
        self.read = 0
        self.nodes = {}
        self.failure = None
        try:
            self.judge()
        except Broken as broken:
            self.failure = str(broken)

    def text(self, at, size):
        self.file.seek(at)
        return self.file.read(size)

    # ---- places

    def superblock(self, place):
        if self.length < place + SECTOR:
            return None
        text = self.text(place, SECTOR)
        named = {48: 8, 64: 8, 72: 8, 80: 8, 112: 8, 144: 4, 148: 4, 2048: 8, 2056: 8, 2064: 4, 0: 4}
        known = bytearray(text)
        for at, size in named.items():
            known[at : at + size] = bytes(size)
        sectors, slots, nodesize = number(text, 2056), number(text, 2048), number(text, 148, 4)
        valid = (
            not any(known)
            and number(text, 0, 4) == crc32c(text[32:])
            and number(text, 48) == place
            and text[64:72] == b"QGRPIMG1"
            and 1 <= number(text, 72) < (1 << 64) - 1
            and number(text, 112) == DATA + SECTOR * sectors
            and number(text, 144, 4) == SECTOR
            and nodesize in (4096, 16384)
            and 64 <= slots <= (16128 if nodesize == 4096 else 4032)
            and 16 <= sectors <= 1 << 24
            and number(text, 2064, 4) == 1
        )
        return text if valid else None

    def judge(self):
        first, second = (self.superblock(place) for place in PLACES)
        if not first and not second:
            raise Broken("super", PLACES[0])
        chosen = first if first and (not second or number(first, 72) >= number(second, 72)) else second
        self.generation, self.root = number(chosen, 72), number(chosen, 80)
        self.nodesize, self.slots, self.sectors = number(chosen, 148, 4), number(chosen, 2048), number(chosen, 2056)
        self.cap = self.nodesize - 101
        if self.length < number(chosen, 112):
            raise Broken("length", self.length)
        if first and second and number(first, 72) == number(second, 72) and first[56:] != second[56:]:
            raise Broken("mirror", PLACES[1])
        roots = dict(self.walk(ROOT, self.root, None, None))
        self.keyed = {ROOT: list(roots.items())}  # of the root, extent and quota trees the items
        self.roots = {key[0]: (number(body, 176), body[238], number(body, 160)) for key, body in roots.items()}
        self.last_snapshots = {key[0]: number(body, 200) for key, body in roots.items()}
        if EXTENTS not in self.roots or TOP not in self.roots:
            raise Broken("root", self.root)
        self.live = sorted(tree for tree in self.roots if is_subvolume(tree))
        if len(self.live) > 4096:
            raise Broken("limits", self.root)
        self.records = self.walk(EXTENTS, *self.roots[EXTENTS])
        self.on = QUOTA in self.roots
        quotas = self.walk(QUOTA, *self.roots[QUOTA]) if self.on else []
        self.keyed[EXTENTS], self.keyed[QUOTA] = self.records, quotas
        self.judge_quota(quotas)
        self.judge_subvolumes()
        self.judge_space()
        self.judge_refs()
        for address in sorted(self.owned):
            owner = self.nodes[address].owner
            if not self.is_full(address) and owner not in self.owned[address]:
                raise Broken("home", address)
        self.rows = []
        for group in sorted(self.groups):
            rfer, excl = self.count(group)
            self.rows.append((group, rfer, excl))
            stored = self.groups[group]
            name = f"{group >> 48}/{group & (1 << 48) - 1}"
            if stored[0] != rfer:
                raise Broken("counter", f"differs {name} rfer {stored[0]} {rfer}")
            if stored[1] != excl:
                raise Broken("counter", f"differs {name} excl {stored[1]} {excl}")

    # ---- nodes

    def node(self, address):
        """A node by its bytes and its address alone."""
        if address in self.nodes:
            return self.nodes[address]
        past = address - SLOTS_AT
        if past < 0 or past % self.nodesize or past // self.nodesize >= self.slots:
            raise Broken("slot", address)
        self.read += 1
        text = self.text(address, self.nodesize)
        node = Node(text)
        if number(text, 0, 4) != crc32c(text[32:]) or any(text[4:32]):
            raise Broken("csum", address)
        if node.place != address:
            raise Broken("place", address)
        if node.level > 7:
            raise Broken("level", address)
        if node.level and not node.count:
            raise Broken("empty", address)
        slack = any(text[32:48]) or any(text[56:80])
        keys = []
        if node.level:
            end = 101 + 33 * node.count
            if end > self.nodesize:
                raise Broken("bounds", address)
            for at in range(101, end, 33):
                key = (number(text, at), text[at + 8], number(text, at + 9))
                keys.append(key)
                node.pointers.append((key, number(text, at + 17), number(text, at + 25)))
            slack = slack or any(text[end:])
        else:
            end, begin = 25 * node.count, self.cap
            for at in range(101, 101 + end, 25):
                if at + 25 > self.nodesize:
                    raise Broken("bounds", address)
                key = (number(text, at), text[at + 8], number(text, at + 9))
                offset, size = number(text, at + 17, 4), number(text, at + 21, 4)
                if offset + size != begin or offset < end:
                    raise Broken("bounds", address)
                begin = offset
                keys.append(key)
                node.items.append((key, text[101 + offset : 101 + offset + size]))
            slack = slack or any(text[101 + end : 101 + begin])
        if any(a >= b for a, b in zip(keys, keys[1:])):
            raise Broken("order", address)
        if slack:
            raise Broken("slack", address)
        self.nodes[address] = node
        return node

    def walk(self, tree, address, level, generation, key=None, after=None, is_root=True, seen=None):
        """The items under a node, each node judged before its children; `seen` is told each address."""
        node = self.node(address)
        if level is not None and node.level != level:
            raise Broken("depth", address)
        if node.owner != tree if tree < TOP or tree == QUOTA else not is_subvolume(node.owner):
            raise Broken("owner", address)
        if (generation is not None and node.generation != generation) or not 0 < node.generation <= self.generation:
            raise Broken("gen", address)
        keys = [it[0] for it in node.items or node.pointers]
        if not is_root and keys and (keys[0] != key or (after is not None and keys[-1] >= after)):
            raise Broken("range", address)
        used = sum(25 + len(body) for _, body in node.items) + 33 * len(node.pointers)
        if (not is_root and 4 * used < self.cap) or (is_root and node.level and len(node.pointers) < 2):
            raise Broken("shape", address)
        for item in node.items:
            if not self.may_hold(tree, *item):
                raise Broken("item", address)
        if seen is not None:
            seen.append(address)
        items = list(node.items)
        for i, (first, child, made) in enumerate(node.pointers):
            behind = node.pointers[i + 1][0] if i + 1 < len(node.pointers) else after
            items += self.walk(tree, child, node.level - 1, made, first, behind, False, seen)
        return items

    def may_hold(self, tree, key, body):
        kind = key[1]
        if kind not in OF_TREE.get(tree, {INODE, DATA_PIECE}) or len(body) != LENGTHS[kind]:
            return False
        late = lambda at: number(body, at) > self.generation
        if kind == INODE:
            return not (key[2] or any(body[32:]) or late(0) or late(8))
        if kind == DATA_PIECE:
            plain = not any(body[16:20]) and body[20] == 1 and number(body, 8) == number(body, 29)
            return plain and not late(0)
        if kind == ROOT_ITEM:
            rest = bytearray(body)
            for at, size in ((160, 8), (176, 8), (200, 8), (216, 4), (238, 1)):
                rest[at : at + size] = bytes(size)
            known = key[0] in (EXTENTS, QUOTA) or is_subvolume(key[0])
            return known and not key[2] and number(body, 216, 4) == 1 and not any(rest) and not late(160) and not late(200)
        if kind in (EXTENT, METADATA):
            return not late(8)
        if kind == STATUS:
            return key == (0, 240, 0) and body == struct.pack("<4Q", 1, self.generation, 1, 0)
        if kind == INFO:
            return not key[0] and not late(0)
        if kind == LIMIT:
            return not key[0] and number(body, 0) <= 3 and not any(body[24:])
        return True

    # ---- rules on all items of a tree

    def judge_quota(self, items):
        infos = {key[2]: body for key, body in items if key[1] == INFO}
        limits = {key[2]: body for key, body in items if key[1] == LIMIT}
        related = {(key[0], key[2]) for key, _ in items if key[1] == RELATION}
        self.groups = {group: (number(body, 8), number(body, 24)) for group, body in infos.items()}
        self.counted = {group: number(body, 0) for group, body in infos.items()}
        self.limits = {}
        self.pairs = sorted(pair for pair in related if pair[0] >> 48 < pair[1] >> 48)  # each (member, parent)
        self.members_of, self.below = {}, {}
        for member, parent in self.pairs:
            self.members_of.setdefault(parent, []).append(member)
        if not self.on:
            return
        status = any(key[1] == STATUS for key, _ in items)
        bad = not status or infos.keys() != limits.keys() or any(tree not in infos for tree in self.live)
        for group, body in infos.items():
            bad = bad or (group >> 48 == 0 and not is_subvolume(group))
            bad = bad or number(body, 8) != number(body, 16) or number(body, 24) != number(body, 32)
        for group, body in limits.items():
            flags, most = number(body, 0), (number(body, 8), number(body, 16))
            bad = bad or any(most[i] and not flags >> i & 1 for i in range(2))
            self.limits[group] = tuple(most[i] if flags >> i & 1 else None for i in range(2))
        for one, other in related:
            bad = bad or (other, one) not in related or one not in infos or other not in infos or one >> 48 == other >> 48
        if bad:
            raise Broken("quota", self.roots[QUOTA][0])
        if len(infos) > 4096 or len(self.pairs) > 16384:
            raise Broken("limits", self.roots[QUOTA][0])

    def judge_subvolumes(self):
        self.owned = {}  # node: the subvolumes that reach it
        self.namers = {}  # (extent, length): the subvolumes
        self.files = {}
        self.stamps = {}  # of each file: the generations of its making and of its last change
        self.written = {}  # of each extent, as pieces tell it
        for tree in self.live:
            seen = []
            items = self.walk(tree, *self.roots[tree], seen=seen)
            for address in seen:
                self.owned.setdefault(address, set()).add(tree)
            files = {}
            for (ino, kind, position), body in items:
                if not 257 <= ino < 1 << 48:
                    raise Broken("file", self.roots[tree][0])
                if kind == INODE:
                    self.stamps.setdefault(tree, {})[ino] = [number(body, 0), number(body, 8)]
                    files[ino] = (number(body, 16), number(body, 24), [])
                    continue
                extent, length = number(body, 21), number(body, 29)
                piece = (position, number(body, 45), extent, number(body, 37))
                whole = any(n % SECTOR for n in (position, piece[1], piece[3], length))
                if ino not in files or whole or not piece[1] or not length or piece[3] + piece[1] > length:
                    raise Broken("file", self.roots[tree][0])
                files[ino][2].append(piece)
                self.namers.setdefault((extent, length), set()).add(tree)
                self.written.setdefault(extent, set()).add(number(body, 0))
            for size, taken, pieces in files.values():
                ends = [piece[0] + piece[1] for piece in pieces]
                begins = [piece[0] for piece in pieces[1:]] + [size]
                bad = any(end > begin for end, begin in zip(ends, begins)) or any(end > size for end in ends)
                if bad or size % SECTOR or size > 1 << 40 or taken != sum(piece[1] for piece in pieces):
                    raise Broken("file", self.roots[tree][0])
            self.files[tree] = {ino: (size, pieces) for ino, (size, _, pieces) in files.items()}

    def judge_space(self):
        extents = sorted(self.namers)
        for i, (extent, length) in enumerate(extents):
            past = extent - DATA
            bad = past < 0 or past % SECTOR or past + length > SECTOR * self.sectors or length > 1 << 27
            if bad or (i + 1 < len(extents) and extents[i + 1][0] < extent + length):
                raise Broken("space", extent)

    def is_full(self, address):
        return bool(self.marks.get(address, 0) & FULL)

    def judge_refs(self):
        records, refs, self.marks, failed = {}, {}, {}, set()
        for (address, kind, what), body in self.records:
            if kind in (EXTENT, METADATA):
                if address in records:
                    failed.add(address)
                records[address] = (kind, what, number(body, 0), number(body, 8), number(body, 16))
                self.marks[address] = number(body, 16) if kind == METADATA else 0
                continue
            name, count = (kind, what), 1
            if kind == DATA_REF:
                name, count = (kind, *struct.unpack_from("<3Q", body)), number(body, 24, 4)
            elif kind == SHARED_DATA:
                count = number(body, 0, 4)
            known = refs.setdefault(address, {})
            if name in known or not count:
                failed.add(address)
            known[name] = count
        owed = {}

        def owe(address, name):
            known = owed.setdefault(address, {})
            known[name] = known.get(name, 0) + 1

        for tree in self.live:
            owe(self.roots[tree][0], (TREE_REF, tree))
        for address in self.owned:
            node, full = self.nodes[address], self.is_full(address)
            for _, child, _ in node.pointers:
                owe(child, (SHARED_TREE, address) if full else (TREE_REF, node.owner))
            for (ino, kind, position), body in node.items:
                if kind == DATA_PIECE:
                    begin = (position - number(body, 37)) % (1 << 64)
                    name = (SHARED_DATA, address) if full else (DATA_REF, node.owner, ino, begin)
                    owe(number(body, 21), name)
        lengths = dict(self.namers.keys())
        self.recorded = {}
        for address in {*owed, *records, *refs}:
            kind, what, count, made, flags = records.get(address, (0, 0, 0, 0, 0))
            if address in self.owned:
                node = self.nodes[address]
                right = (kind, what, made, flags & ~FULL) == (METADATA, node.level, node.generation, 2)
            else:
                self.recorded[address] = made
                right = (kind, what, flags) == (EXTENT, lengths.get(address), 1)
            if not right or refs.get(address, {}) != owed.get(address) or count != sum(owed[address].values()):
                failed.add(address)
        if failed:
            raise Broken("refs", min(failed))

    def count(self, group):
        """What a group counts: each node and extent that some member reaches, and those that no other subvolume does."""
        members = self.members(group)
        sizes = [(self.nodesize, subs) for subs in self.owned.values()]
        sizes += [(length, subs) for (_, length), subs in self.namers.items()]
        rfer = sum(size for size, subs in sizes if subs & members)
        return rfer, sum(size for size, subs in sizes if subs and subs <= members)

    def members(self, group):
        """The subvolumes that are the group's own or lead to it by a chain of relations."""
        if group >> 48 == 0:
            return {group} & set(self.live)
        if group not in self.below:
            # (each group by those below it, which are told first as levels rise)
            self.below[group] = set()
            for member in self.members_of.get(group, ()):
                self.below[group] |= self.members(member)
        return self.below[group]

    def owners(self, address):
        """The subvolumes that reach what begins at an address."""
        subs = set(self.owned.get(address, ()))
        for (extent, _), more in self.namers.items():
            if extent == address:
                subs |= more
        return sorted(subs)

    def show(self):
        """The reply of `show`."""
        if not self.on:
            return ["no off"]
        most = lambda group: " ".join("none" if it is None else str(it) for it in self.limits[group])
        rows = [f"{group >> 48}/{group & (1 << 48) - 1} {rfer} {excl} {most(group)}" for group, rfer, excl in self.rows]
        return rows + ["ok"]


if __name__ == "__main__":
    image = Image(sys.argv[1])
    if image.failure:
        print(image.failure.removeprefix("broken counter "))
        sys.exit(3)
    print(f"sound {image.generation}")
    print("\n".join(image.show()[:-1]))
