"""What lines of a script are answered by docs/MACHINE.md, but for counts and the need of slots: a plain model of files,
extents, subvolumes and groups, which shares nothing with the crates. bench/share_cases, bench/share_tries and
bench/group_tries stand on it. Where limits are set, who asks puts into `counts` what each group counts as of the last
commit."""

SECTOR, DATA, FARTHEST, LONGEST = 4096, 67174400, 1 << 40, 1 << 27


def name_of(group):
    return f"{group >> 48}/{group & (1 << 48) - 1}"


def number_of(name):
    level, number = name.split("/")
    return (int(level) << 48) + int(number)


class Machine:
    def __init__(self, sectors, nodesize=4096):
        self.sectors, self.nodesize = sectors, nodesize
        self.files = {5: {}}
        self.on = True
        self.limits = {5: (None, None)}  # of each group, referenced and exclusive
        self.pairs = set()  # relations, each (member, parent)
        self.counts = {5: (nodesize, nodesize)}  # of each group, as the last commit stored them
        self.held = {}  # of each subvolume, what was reserved since the last commit
        self.generation = 1
        self.pending = 0
        self.last = {}
        self.stamps = {5: {}}  # of each file: the generations of its making and of its last change
        self.written = {}  # of each extent
        self.snapshots = {5: 0}

    def changed(self, sub, ino):
        stamps = self.stamps[sub].setdefault(ino, [self.generation + 1, 0])
        stamps[1] = self.generation + 1
        self.pending += 1

    def extents(self):
        found = {}
        for files in self.files.values():
            for _, pieces in files.values():
                for _, _, extent, _, whole in pieces:
                    found[extent] = whole
        return found

    def free_run(self, length):
        held = sorted({**self.last, **self.extents()}.items())
        at = DATA
        for extent, whole in held:
            if extent >= at + length:
                break
            at = max(at, extent + whole)
        return at if at + length <= DATA + SECTOR * self.sectors else None

    def commit(self):
        self.generation += 1
        self.pending = 0
        self.last = self.extents()
        self.held = {}

    def settle(self):
        """Before a structural change, and behind it."""
        if self.pending:
            self.commit()

    def next_number(self):
        return max(255, *self.files, *(group for group in self.limits if not group >> 48)) + 1

    def answer(self, line):
        """The lines of the reply, or None where they are counts."""
        words = line.split()
        name, numbers = words[0], [int(word) for word in words[1:] if word.isdigit()]
        groups = [number_of(word) for word in words[1:] if "/" in word]
        if name in ("quota", "qgroup", "limit"):
            return getattr(self, f"do_{name}_{words[1]}")(*groups, *(words[3:] if name == "limit" else ()))
        return getattr(self, "do_" + name)(*groups if name in ("assign", "remove") else numbers, *([groups] if name == "snap" else ()))

    def do_show(self):
        return None if self.on else ["no off"]

    # ---- groups

    def above(self, group):
        """The group and all that it leads to."""
        found, todo = set(), [group]
        while todo:
            at = todo.pop()
            if at not in found:
                found.add(at)
                todo += [parent for member, parent in self.pairs if member == at]
        return found

    def counted(self):
        """What each group counts now, where each subvolume's tree is one leaf."""
        reach = {sub: {("leaf", sub): self.nodesize} for sub in self.files}
        for sub, files in self.files.items():
            reach[sub].update((piece[2], piece[4]) for _, pieces in files.values() for piece in pieces)
        counts = {}
        for group in self.limits:
            inside, outside = {}, set()
            for sub in self.files:
                if group in self.above(sub):
                    inside.update(reach[sub])
                else:
                    outside.update(reach[sub])
            counts[group] = (sum(inside.values()), sum(size for at, size in inside.items() if at not in outside))
        return counts

    def shown(self):
        """The reply of `show`, where `counts` are what was stored."""
        if not self.on:
            return ["no off"]
        most = lambda group: " ".join("none" if it is None else str(it) for it in self.limits[group])
        return [f"{name_of(it)} {self.counts[it][0]} {self.counts[it][1]} {most(it)}" for it in sorted(self.limits)] + ["ok"]

    def over(self, sub, amount):
        """Why a reservation into a subvolume is refused, if it is."""
        for group in sorted(self.above(sub) if self.on else ()):
            held = sum(more for other, more in self.held.items() if group in self.above(other))
            for i, which in enumerate(("rfer", "excl")):
                most = self.limits[group][i]
                if most is not None and self.counts[group][i] + held + amount > most:
                    return [f"no quota {name_of(group)} {which}"]
        return None

    def changing(self, change):
        """A structural change that is let through."""
        self.settle()
        change()
        self.commit()
        return ["ok"]

    def do_quota_on(self):
        return ["no on"] if self.on else self.changing(self.turn_on)

    def turn_on(self):
        self.on, self.limits, self.pairs = True, {sub: (None, None) for sub in self.files}, set()

    def do_quota_off(self):
        return self.changing(self.turn_off) if self.on else ["no off"]

    def turn_off(self):
        self.on, self.limits, self.pairs = False, {}, set()

    def do_qgroup_create(self, group):
        if not self.on:
            return ["no off"]
        if not group >> 48:
            return ["no level"]
        if group in self.limits:
            return ["no there"]
        if len(self.limits) >= 4096:
            return ["no many"]
        return self.changing(lambda: self.limits.update({group: (None, None)}))

    def do_qgroup_destroy(self, group):
        if not self.on:
            return ["no off"]
        if group not in self.limits:
            return ["no group"]
        if group in self.files or any(parent == group for _, parent in self.pairs):
            return ["no busy"]
        return self.changing(lambda: self.destroy(group))

    def destroy(self, group):
        del self.limits[group]
        self.pairs = {pair for pair in self.pairs if pair[0] != group}

    def do_assign(self, member, parent):
        if not self.on:
            return ["no off"]
        if member >> 48 >= parent >> 48:
            return ["no level"]
        if member not in self.limits or parent not in self.limits:
            return ["no group"]
        if (member, parent) in self.pairs:
            return ["no related"]
        if len(self.pairs) >= 16384:
            return ["no many"]
        return self.changing(lambda: self.pairs.add((member, parent)))

    def do_remove(self, member, parent):
        if not self.on:
            return ["no off"]
        if (member, parent) not in self.pairs:
            return ["no unrelated"]
        return self.changing(lambda: self.pairs.remove((member, parent)))

    def do_limit_rfer(self, group, most):
        return self.limit(group, 0, most)

    def do_limit_excl(self, group, most):
        return self.limit(group, 1, most)

    def limit(self, group, i, most):
        if not self.on:
            return ["no off"]
        if group not in self.limits:
            return ["no group"]
        both = list(self.limits[group])
        both[i] = None if most == "none" else int(most)
        return self.changing(lambda: self.limits.update({group: tuple(both)}))

    # ---- subvolumes and files

    def do_commit(self):
        if self.pending:
            self.commit()
        return [f"ok commit {self.generation}"]

    def do_sub(self):
        return self.made({}, {}, None)

    def do_snap(self, sub, parents):
        if sub not in self.files:
            return ["no sub"]
        if parents and not self.on:
            return ["no off"]
        for i, parent in enumerate(parents):
            if not parent >> 48:
                return ["no level"]
            if parent not in self.limits:
                return ["no group"]
            if parent in parents[:i]:
                return ["no related"]
        files = {ino: (size, list(pieces)) for ino, (size, pieces) in self.files[sub].items()}
        return self.made(files, {ino: list(both) for ino, both in self.stamps[sub].items()}, sub, parents)

    def made(self, files, stamps, source, parents=()):
        number = self.next_number()
        if len(self.files) >= 4096 or len(self.limits) >= 4096 or len(self.pairs) + len(parents) > 16384 or number >= 1 << 48:
            return ["no many"]
        self.settle()
        self.files[number], self.stamps[number], self.snapshots[number] = files, stamps, 0
        if self.on:
            self.limits[number] = self.limits.get(source, (None, None))
            self.pairs |= {(number, parent) for parent in parents}
        self.commit()
        if source:
            self.snapshots[number] = self.snapshots[source] = self.generation
        return [f"ok sub {number}"]

    def do_delete(self, sub):
        if sub == 5:
            return ["no top"]
        if sub not in self.files:
            return ["no sub"]
        self.settle()
        del self.files[sub], self.stamps[sub], self.snapshots[sub]
        self.commit()
        return ["ok"]

    def do_ls(self, sub, ino):
        if sub not in self.files:
            return ["no sub"]
        if ino not in self.files[sub]:
            return ["no file"]
        size, pieces = self.files[sub][ino]
        return [" ".join(map(str, piece[:4])) for piece in pieces] + [f"ok file {size}"]

    def do_owners(self, address):
        subs = [sub for sub, files in self.files.items() if any(p[2] == address for _, ps in files.values() for p in ps)]
        return [" ".join(["ok owners", *map(str, sorted(subs))])]

    def do_write(self, sub, ino, off, length):
        if sub not in self.files:
            return ["no sub"]
        if off % SECTOR or length % SECTOR or not length:
            return ["no align"]
        if off + length > FARTHEST or length > LONGEST:
            return ["no far"]
        over = self.over(sub, length + self.nodesize)
        if over:
            return over
        extent = self.free_run(length)
        if extent is None:
            return ["no run"]
        self.held[sub] = self.held.get(sub, 0) + length + self.nodesize
        size, pieces = self.files[sub].get(ino, (0, []))
        pieces = self.cut(pieces, off, off + length) + [(off, length, extent, 0, length)]
        self.files[sub][ino] = (max(size, off + length), sorted(pieces))
        self.changed(sub, ino)
        self.written[extent] = self.generation + 1
        return [f"ok extent {extent}"]

    def do_clone(self, sub, ino, off, length, sub2, ino2, off2):
        if sub not in self.files or sub2 not in self.files:
            return ["no sub"]
        if ino not in self.files[sub]:
            return ["no file"]
        if any(n % SECTOR for n in (off, length, off2)) or not length:
            return ["no align"]
        if max(off, off2) + length > FARTHEST:
            return ["no far"]
        size, pieces = self.files[sub][ino]
        if off + length > size:
            return ["no source"]
        if (sub, ino) == (sub2, ino2) and abs(off - off2) < length:
            return ["no overlap"]
        over = self.over(sub2, self.nodesize)
        if over:
            return over
        self.held[sub2] = self.held.get(sub2, 0) + self.nodesize
        taken = []
        for at, long, extent, skip, whole in pieces:
            begin, end = max(at, off), min(at + long, off + length)
            if begin < end:
                taken.append((begin - off + off2, end - begin, extent, skip + begin - at, whole))
        size2, pieces2 = self.files[sub2].get(ino2, (0, []))
        pieces2 = self.cut(pieces2, off2, off2 + length) + taken
        self.files[sub2][ino2] = (max(size2, off2 + length), sorted(pieces2))
        self.changed(sub2, ino2)
        return ["ok"]

    def do_truncate(self, sub, ino, size):
        if sub not in self.files:
            return ["no sub"]
        if ino not in self.files[sub]:
            return ["no file"]
        if size % SECTOR:
            return ["no align"]
        if size > FARTHEST:
            return ["no far"]
        _, pieces = self.files[sub][ino]
        self.files[sub][ino] = (size, sorted(self.cut(pieces, size, 1 << 60)))
        self.changed(sub, ino)
        return ["ok"]

    def do_unlink(self, sub, ino):
        if sub not in self.files:
            return ["no sub"]
        if ino not in self.files[sub]:
            return ["no file"]
        del self.files[sub][ino], self.stamps[sub][ino]
        self.pending += 1
        return ["ok"]

    @staticmethod
    def cut(pieces, begin, end):
        left = []
        for at, long, extent, skip, whole in pieces:
            if at < begin:
                left.append((at, min(long, begin - at), extent, skip, whole))
            if at + long > end:
                ahead = max(0, end - at)
                left.append((at + ahead, long - ahead, extent, skip + ahead, whole))
        return sorted(left)
