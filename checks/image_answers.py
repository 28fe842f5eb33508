"""What the commands answer of an image, by `docs/FORMAT.md` and `docs/COMMANDS.md` and by none of the program's code."""
import hashlib
import hmac
import struct

from journal_program import BASES, SECTOR, runs_of

RECALCULATING, DIRTY_BITMAP, FIXED_PADDING, FIXED_HMAC = 2, 4, 8, 16
HAVE_JOURNAL_MAC, INLINE = 1, 32
MOST_SECTORS, MOST_JOURNAL = 1 << 48, 1 << 20
UNUSED = 0xffffffff


class Refused(Exception):
    """What stands behind `fault image ` where an image is refused."""


class Bytes:
    """A disk that is these bytes."""

    def __init__(self, content):
        self.content, self.sectors = content, len(content) // SECTOR

    def read(self, sector, count=1):
        return self.content[sector * SECTOR:(sector + count) * SECTOR]


class File:
    """A disk that is an open file, of which most may be a hole."""

    def __init__(self, file):
        self.file, self.sectors = file, file.seek(0, 2) // SECTOR

    def read(self, sector, count=1):
        self.file.seek(sector * SECTOR)
        return self.file.read(count * SECTOR)


def up(number, by):
    """The quotient, rounded up."""
    return -(-number // by)


class Fields:
    """The superblock of a disk, or the first fault of it."""

    def __init__(self, disk):
        if not disk.sectors:
            raise Refused("magic")
        (magic, self.version, self.log2_interleave, self.tag_size, self.sections, self.provided, self.flags, self.log2_spb,
         self.log2_region, self.recalculate, self.salt) = struct.unpack_from("<8sBBHIQIBB2xQ8x16s", disk.read(0))
        faults = (
            (magic != b"integrt\0", "magic"),
            (not 1 <= self.version <= 5, f"version {self.version}"),
            (self.flags & HAVE_JOURNAL_MAC, f"journal mac 0x{self.flags:x}"),
            (self.flags & INLINE, f"inline 0x{self.flags:x}"),
            (self.unknown(), f"flags 0x{self.unknown():x}"),
            (not 3 <= self.log2_interleave <= 31, f"interleave {self.log2_interleave}"),
            (self.log2_spb > 3, f"block size {self.log2_spb}"),
            (not 1 <= self.tag_size <= 32, f"tag size {self.tag_size}"),
            (self.sections == 0, "sections 0"),
            (not self.provides_blocks(), f"provided {self.provided}"),
        )
        for holds, text in faults:
            if holds:
                raise Refused(text)

    def unknown(self):
        """The flags that are not accepted."""
        return self.flags & ~(RECALCULATING | DIRTY_BITMAP | FIXED_PADDING | FIXED_HMAC)

    def provides_blocks(self):
        """Some whole blocks are provided, and no more than may be."""
        return 0 < self.provided <= MOST_SECTORS and self.provided % (1 << self.log2_spb) == 0


class Geometry:
    """Where the parts of an image lie, or the first fault of that."""

    def __init__(self, disk):
        f = self.fields = Fields(disk)
        self.disk, self.spb, self.interleave = disk, 1 << f.log2_spb, 1 << f.log2_interleave
        self.entry = up(8 + 8 * self.spb + f.tag_size, 8) * 8
        self.entries = 504 // self.entry * 8
        self.section = 8 + self.entries * self.spb
        self.journal = self.section * f.sections
        pad = 4096 if f.flags & FIXED_PADDING else 131072
        self.tag_run = up(self.interleave // self.spb * f.tag_size, pad) * pad // SECTOR
        self.blocks = f.provided // self.spb
        self.has_bitmap = bool(f.flags & DIRTY_BITMAP)
        self.bitmap = up(self.region_count(), 32768) * 8
        need = self.sector_at(f.provided - 1) + 1
        faults = (
            (disk.sectors > MOST_SECTORS, f"device too large {disk.sectors}"),
            (self.journal > MOST_JOURNAL, f"journal too large {self.journal}"),
            (need > disk.sectors, f"too small {disk.sectors} {need}"),
            (self.has_bitmap and self.bitmap > self.journal, f"bitmap too large {self.bitmap} {self.journal}"),
        )
        for holds, text in faults:
            if holds:
                raise Refused(text)

    def region_count(self):
        return up(self.blocks, 1 << self.fields.log2_region)

    def fitting_region(self):
        """The log of the blocks of a region: the least from that of the fields on whose bitmap fits."""
        log2_region = self.fields.log2_region
        while up(up(self.blocks, 1 << log2_region), 32768) * 8 > self.journal:
            log2_region += 1
        return log2_region

    def fitting_bitmap(self):
        """The sectors of a bitmap of such regions."""
        return up(up(self.blocks, 1 << self.fitting_region()), 32768) * 8

    def sector_at(self, sector):
        """Where a sector of the device lies."""
        area, within = divmod(sector, self.interleave)
        return 8 + self.journal + area * (self.tag_run + self.interleave) + self.tag_run + within

    def placed(self, block):
        """The bytes of a block in its place, and its tag."""
        area, within = divmod(block * self.spb, self.interleave)
        begin = 8 + self.journal + area * (self.tag_run + self.interleave)
        sector, at = divmod(within // self.spb * self.fields.tag_size, SECTOR)
        tags = self.disk.read(begin + sector, 2)
        return self.disk.read(self.sector_at(block * self.spb), self.spb), tags[at:at + self.fields.tag_size]

    def tag_of(self, block, content, key):
        """The tag of a block's bytes."""
        salt = self.fields.salt if self.fields.flags & FIXED_HMAC else b""
        message = salt + struct.pack("<Q", block * self.spb) + content
        digest = hmac.new(key, message, "sha256") if key else hashlib.sha256(message)
        return digest.digest()[:self.fields.tag_size]

    def set_regions(self):
        """The regions whose bit is set."""
        bits = self.disk.read(8, self.bitmap)
        return {region for region in range(self.region_count()) if bits[region // 8] >> region % 8 & 1}

    def awaiting(self):
        """The blocks that await their tags: those of the regions whose bit is set, or those from the position on."""
        f = self.fields
        if self.has_bitmap:
            dirty = self.set_regions()
            return {block for block in range(self.blocks) if block >> f.log2_region in dirty}
        return set(range(f.recalculate // self.spb, self.blocks)) if f.flags & RECALCULATING else set()


def commit_id(section, sector, number):
    """The commit id of a number in its place."""
    return struct.pack("<Q", BASES[number] ^ (section << 32 ^ sector))


def number_of(section, sector, content):
    """The commit number that a sector bears in its place, if it bears one."""
    ids = [commit_id(section, sector, number) for number in range(4)]
    return ids.index(content[504:]) if content[504:] in ids else None


class Journal:
    """The numbers of a journal, and the sections that are replayed, or why it has none."""

    def __init__(self, geometry):
        self.geometry, self.sections = geometry, geometry.fields.sections
        blank = self.blank_number()
        if blank is not None:
            self.newest, self.state, self.next, self.walk = blank, "blank", 0, []
            return
        self.whole = [self.numbers_of(section) for section in range(self.sections)]
        used = set().union(*self.whole)
        if len(used) == 4:
            raise Refused("four numbers")
        self.newest, self.state, self.next = self.judged(used)
        self.walk = [] if self.state == "erasing" else self.walked(used)

    def blank_number(self):
        """The number of a blank journal, if it is one. Some sectors are zero where a bitmap that fits would stand; the
        others bear one number, and no entry in them is used. Where there are no others it is 0."""
        numbers, has_zeros, bitmap = set(), False, self.geometry.fitting_bitmap()
        for place in range(self.geometry.journal):
            content = self.geometry.disk.read(8 + place)
            section, sector = divmod(place, self.geometry.section)
            if place < bitmap and not any(content):
                has_zeros = True
            elif self.has_used(sector, content) or not has_zeros and place >= bitmap:
                return None
            else:
                numbers.add(number_of(section, sector, content))
                if len(numbers) > 1 or None in numbers:
                    return None
        return (numbers or {0}).pop()

    def has_used(self, sector, content):
        """Whether an entry that stands in a sector of a section is used."""
        if sector >= 8:
            return False
        entries = range(self.geometry.entries // 8)
        return any(content[n * self.geometry.entry + 4:n * self.geometry.entry + 8] != b"\xff" * 4 for n in entries)

    def numbers_of(self, section):
        """The numbers that the sectors of a section bear."""
        content = self.geometry.disk.read(8 + section * self.geometry.section, self.geometry.section)
        numbers = [number_of(section, sector, content[sector * SECTOR:(sector + 1) * SECTOR])
                   for sector in range(self.geometry.section)]
        if None in numbers:
            raise Refused(f"number {section} {numbers.index(None)}")
        return set(numbers)

    def judged(self, used):
        """The newest number, the state, and which section is next where the journal is at rest."""
        if len(used) == 1:
            return *used, "rest", 0
        if len(used) == 3:
            return ((6 - sum(used)) - 1) % 4, "erasing", 0
        low, high = sorted(used)
        if high - low == 2:
            return low, "erasing", 0
        newest = high if high - low == 1 else low
        first = self.whole.index({(newest - 1) % 4}) if {(newest - 1) % 4} in self.whole else 0
        at_rest = [{newest}] * first + [{(newest - 1) % 4}] * (self.sections - first)
        return newest, "rest" if first and self.whole == at_rest else "mixed", first

    def walked(self, used):
        """The sections that count, in order."""
        if len(used) == 1:
            return list(range(self.sections))
        last = max(section for section in range(self.sections) if self.newest in self.whole[section])
        walk = list(range(last + 1, self.sections))
        for section in range(last + 1):
            if self.whole[section] != {self.newest}:
                break
            walk.append(section)
        return walk

    def text(self):
        """Its line in a dump."""
        if self.state == "blank":
            return f"journal blank number {self.newest}"
        if self.state != "rest":
            return f"journal {self.state} newest {self.newest}"
        number = self.newest if self.next else (self.newest + 1) % 4
        return f"journal rest next {self.next} number {number}"

    def entries(self, key):
        """The bytes and the tag of each block that has an entry, the newest ones, or the first fault of an entry."""
        found = {}
        for section in self.walk:
            content = self.geometry.disk.read(8 + section * self.geometry.section, self.geometry.section)
            for number in range(self.geometry.entries):
                self.add_entry(found, section, number, content, key)
        return found

    def add_entry(self, found, section, number, content, key):
        """Adds an entry of a section, if it is used."""
        g = self.geometry
        at = number % 8 * SECTOR + number // 8 * g.entry
        sector, = struct.unpack_from("<Q", content, at)
        if sector >> 32 == UNUSED:
            return
        if sector % g.spb or sector >= g.fields.provided:
            raise Refused(f"journal block {section} {number} {sector}")
        block, data = sector // g.spb, (8 + number * g.spb) * SECTOR
        joined = b"".join(content[data + k * SECTOR:data + k * SECTOR + 504] + content[at + 8 + 8 * k:at + 16 + 8 * k]
                          for k in range(g.spb))
        tag = content[at + 8 + 8 * g.spb:at + 8 + 8 * g.spb + g.fields.tag_size]
        computed = g.tag_of(block, joined, key)
        if tag != computed:
            raise Refused(f"journal tag {section} {number} stored {tag.hex()} computed {computed.hex()}")
        found[block] = (joined, tag)


class Answers:
    """What the commands answer of a disk, under a key: a status and a text each."""

    def __init__(self, disk, key=None):
        self.disk, self.key = disk, key

    def answered(self, told):
        """What is told of it, or that it is refused."""
        try:
            return told(Geometry(self.disk))
        except Refused as why:
            return 3, f"fault image {why}\n"

    def dump(self):
        return self.answered(self.shown)

    def check(self):
        return self.answered(self.checked)

    def run(self, blocks, consents=False):
        """That of a run in any mode which reads these blocks, one by one, and consents to tags that are made anew."""
        return self.answered(lambda g: self.read(g, blocks, consents))

    def cells(self):
        """The bytes and the tag of each block, as an opening gives them: one that awaits has the tag of its bytes."""
        geometry = Geometry(self.disk)
        entries, awaiting = self.entries(geometry), geometry.awaiting()
        return [self.cell(geometry, block, entries, block in awaiting) for block in range(geometry.blocks)]

    def cell(self, geometry, block, entries, awaits):
        """The bytes and the tag of a block, of which one that awaits has the tag of its bytes."""
        content, tag = entries.get(block) or geometry.placed(block)
        return content, geometry.tag_of(block, content, self.key) if awaits else tag

    def entries(self, geometry):
        return {} if geometry.has_bitmap else Journal(geometry).entries(self.key)

    @staticmethod
    def shown(g):
        f = g.fields
        last = f"journal bitmap set {len(g.set_regions())}" if g.has_bitmap else Journal(g).text()
        lines = (f"version {f.version}", f"interleave {g.interleave}", f"tag {f.tag_size}", f"sections {f.sections}",
                 f"provided {f.provided}", f"flags 0x{f.flags:x}", f"block {g.spb * SECTOR}",
                 f"log2 blocks per bit {f.log2_region}", f"recalculate {f.recalculate}", f"salt {f.salt.hex()}",
                 f"initial {8 + g.journal}", f"tag run {g.tag_run}", f"section entries {g.entries}",
                 f"section sectors {g.section}", f"blocks {g.blocks}", last)
        return 0, "".join(f"{line}\n" for line in lines)

    def checked(self, g):
        entries, awaiting = self.entries(g), g.awaiting()
        lines = []
        for block in sorted(set(range(g.blocks)) - awaiting):
            content, stored = entries.get(block) or g.placed(block)
            computed = g.tag_of(block, content, self.key)
            if stored != computed:
                lines.append(f"bad {block} stored {stored.hex()} computed {computed.hex()}\n")
        lines.append(f"blocks {g.blocks} bad {len(lines)} awaiting {len(awaiting)}\n")
        return int(len(lines) > 1), "".join(lines)

    def read(self, g, blocks, consents):
        awaiting = g.awaiting()
        if self.key and awaiting and not consents:
            raise Refused(f"consent 0x{g.fields.flags:x}")
        entries = self.entries(g)
        lines, bad = [], 0
        for block in blocks:
            content, stored = entries.get(block) or g.placed(block)
            computed = g.tag_of(block, content, self.key)
            if stored == computed or block in awaiting:
                lines.append(f"ok read {block} 1 {runs_of(content)}\n")
            else:
                bad = 1
                lines.append(f"fault block {block} stored {stored.hex()} computed {computed.hex()}\n")
        return bad, "".join(lines) + "closed\n"
