"""A second reader of compound files (MS-CFB 2), written apart from the program: either the tree of a file, or the faults that it has.

A file at fault may have several. The faults are those of the part at which a reader can't go on: the header, the FAT, the directory's
chain; or, where these are right, all that stand in the rest. A reader may answer any of them.
"""

END, NONE, REGULAR = 0xFFFFFFFE, 0xFFFFFFFF, 0xFFFFFFF9
SIGNATURE = bytes.fromhex("d0cf11e0a1b11ae1")
FIXED = ((26, 2, 3), (28, 2, 0xFFFE), (30, 2, 9), (32, 2, 6), (56, 4, 4096))
MOST_FAT, MOST_DIFAT, LISTED, NAMED, DEEPEST, CUTOFF = 1125, 8, 109, 127, 32, 4096


class Refused(Exception):
    """A file at fault, with the faults that it has."""

    def __init__(self, faults):
        super().__init__(" ".join(sorted(faults)))
        self.faults = faults


def number(data, at, count=4):
    return int.from_bytes(data[at:at + count], "little")


class Store:
    """Sectors, or mini sectors: how wide they are, which of them are there, and what follows each."""

    def __init__(self, width, is_there, table):
        self.width, self.is_there, self.table = width, is_there, table

    def walk(self, start, size, taken):
        """Returns the chain from a sector on, and what is wrong with it, for a part of so many bytes."""
        chain, met, faults, at = [], set(), set(), start
        while at != END:
            if not self.is_there(at):
                faults.add("OutOfFile")
                break
            if at in met:
                faults.add("Cycle")
                break
            if at in taken:
                faults.add("CrossLinked")
            chain.append(at)
            met.add(at)
            at = self.table(at)
        if at == END and self.width * len(chain) < size:
            faults.add("ShortChain")
        return chain, faults


class Entry:
    """An entry of the directory, of 128 bytes."""

    def __init__(self, data):
        self.length, self.kind = number(data, 64, 2), data[66]
        self.left, self.right, self.child = (number(data, it) for it in (68, 72, 76))
        self.class_id, self.first, self.size = data[80:96], number(data, 116), number(data, 120)
        self.units = [number(data, 2 * it, 2) for it in range((self.length - 2) // 2)] if 4 <= self.length <= 64 else []

    def faults(self):
        """What is wrong with the entry of a storage or a stream below the root."""
        found = set()
        if self.kind not in (1, 2) or self.length % 2:
            found.add("BadEntry")
        if self.length < 4:
            found.add("NameEmpty")
        if self.length > 64:
            found.add("NameTooLong")
        if any(it > 127 for it in self.units):
            found.add("NameNotAscii")
        if any(it in b"\0/\\:!" for it in self.units if it < 128):
            found.add("NameForbidden")
        return found

    def key(self):
        """By what siblings are ordered."""
        return len(self.units), [it - 32 if 97 <= it <= 122 else it for it in self.units]

    def name(self):
        return "".join(f"\\{it:02x}" if it <= 32 or it == 127 else chr(it) for it in self.units)


def uuid(data):
    parts = data[3::-1], data[5:3:-1], data[7:5:-1], data[8:10], data[10:16]
    return "-".join(bytes(it).hex() for it in parts)


class File:
    """The tree of a file, once its parts are read: lines as `list` prints them, and the bytes of each stream by its path."""

    def __init__(self, data):
        self.data, self.lines, self.streams = data, [], {}
        self.read_header()
        self.read_fat()
        self.read_directory()
        self.read_rest()

    def sector(self, at):
        found = self.data[512 * (at + 1):512 * (at + 2)]
        return found + bytes(512 - len(found))

    def read_header(self):
        data = self.data
        if len(data) < 512:
            raise Refused({"Truncated"})
        if data[:8] != SIGNATURE:
            raise Refused({"BadSignature"})
        for at, count, wanted in FIXED:
            if number(data, at, count) != wanted:
                raise Refused({"Unsupported"})
        self.fat_count, self.difat_count, self.mini_count = (number(data, it) for it in (44, 72, 64))
        if self.fat_count > MOST_FAT or self.difat_count > MOST_DIFAT:
            raise Refused({"TooBig"})

    def is_there(self, at):
        return at <= REGULAR and at < 128 * self.fat_count and 512 * (at + 1) < len(self.data)

    def read_fat(self):
        faults, difat, at = set(), [], number(self.data, 68)
        for _ in range(self.difat_count):
            if not self.is_there(at):
                faults.add("OutOfFile")
                break
            if at in difat:
                faults.add("Cycle")
                break
            difat.append(at)
            at = number(self.sector(at), 508)
        named = [number(self.data, 76 + 4 * it) for it in range(LISTED)]
        named += [number(self.sector(it), 4 * k) for it in difat for k in range(NAMED)]
        fat = named[:self.fat_count]
        if not faults and len(fat) < self.fat_count:
            faults.add("ShortChain")
        if not all(self.is_there(it) for it in fat):
            faults.add("OutOfFile")
        if len({*fat, *difat}) < len(fat) + len(difat):
            faults.add("CrossLinked")
        if faults:
            raise Refused(faults)
        self.fat, self.own = b"".join(self.sector(it) for it in fat), {*fat, *difat}
        self.sectors = Store(512, self.is_there, lambda it: number(self.fat, 4 * it))

    def read_directory(self):
        chain, faults = self.sectors.walk(number(self.data, 48), 0, self.own)
        if faults:
            raise Refused(faults)
        self.directory, self.own = b"".join(self.sector(it) for it in chain), self.own | {*chain}
        if not chain or self.directory[66] != 5:
            raise Refused({"BadEntry"})
        self.root = Entry(self.directory[:128])

    def read_minis(self):
        """The mini FAT and the mini stream. Returns what is wrong with them."""
        table, chain, minis, faults = b"", [], [], set()
        if self.mini_count:
            chain, faults = self.sectors.walk(number(self.data, 60), 512 * self.mini_count, self.own)
            table = b"".join(self.sector(it) for it in chain[:self.mini_count])
        if not faults and self.root.size:
            minis, faults = self.sectors.walk(self.root.first, self.root.size, self.own | {*chain})
        self.own |= {*chain, *minis}
        self.mini_bytes = b"".join(self.sector(it) for it in minis)
        is_there = lambda it: 64 * it < self.root.size and it < 128 * self.mini_count
        self.minis = Store(64, is_there, lambda it: number(table, 4 * it))
        return faults

    def children(self, entry, reached):
        """The ids that the links of a storage reach, and what is wrong with these links."""
        found, faults, left = [], set(), [entry.child]
        while left:
            at = left.pop()
            if at == NONE:
                continue
            if 128 * at >= len(self.directory):
                faults.add("BadEntry")
            elif at == 0 or at in reached:
                faults.add("TreeCycle")
            else:
                reached.add(at)
                found.append(at)
                below = self.entry(at)
                left += [below.right, below.left]
        return found, faults

    def entry(self, at):
        return Entry(self.directory[128 * at:128 * (at + 1)])

    def walk_tree(self):
        """Each entry below the root with its path, in the order of a listing, and what is wrong with the directory."""
        faults, reached, found = set(), set(), []
        # (an entry that is refused isn't looked below, so what lies there is at fault only where something above it is)
        stack = [(self.root, "", 0)]
        while stack:
            entry, path, level = stack.pop()
            if path:
                found.append((entry, path))
            if entry.kind == 2:
                continue
            ids, wrong = self.children(entry, reached)
            faults |= wrong
            inside = [self.entry(it) for it in ids]
            for each in inside:
                faults |= each.faults()
                if each.kind == 1 and level + 1 > DEEPEST:
                    faults.add("TooNested")
            inside = sorted((it for it in inside if it.kind in (1, 2)), key=Entry.key)
            if any(one.key() == other.key() for one, other in zip(inside, inside[1:])):
                faults.add("DuplicateName")
            stack += [(it, f"{path}/{it.name()}" if path else it.name(), level + 1) for it in reversed(inside)]
        return found, faults

    def read_rest(self):
        faults = self.read_minis()
        has_minis = not faults
        found, wrong = self.walk_tree()
        faults = faults | wrong
        streams = [(entry, path) for entry, path in found if entry.kind == 2 and entry.size]
        walked = []
        for entry, path in streams:
            store, taken = (self.minis, set()) if entry.size < CUTOFF else (self.sectors, self.own)
            if has_minis or store is self.sectors:
                walked.append((entry, path, store, *store.walk(entry.first, entry.size, taken)))
        for store in (self.minis, self.sectors):
            mine = [(chain, wrong) for _, _, of, chain, wrong in walked if of is store]
            counts = {}
            for chain, wrong in mine:
                faults |= wrong
                for it in chain:
                    counts[it] = counts.get(it, 0) + 1
            if any(it > 1 for it in counts.values()):
                faults.add("CrossLinked")
        if faults:
            raise Refused(faults)
        self.lines = [f"root {uuid(self.root.class_id)}"]
        self.lines += [f"stream {path} {it.size}" if it.kind == 2 else f"storage {path} {uuid(it.class_id)}" for it, path in found]
        self.streams = {path: b"" for entry, path in found if entry.kind == 2}
        for entry, path, store, chain, _ in walked:
            read = self.sector if store is self.sectors else lambda it: self.mini_bytes[64 * it:64 * (it + 1)]
            self.streams[path] = b"".join(read(it) for it in chain)[:entry.size]


def read(data):
    """Returns the file that the bytes are, or raises Refused."""
    return File(data)
