"""What an opening writes on an image with a journal, what it makes of it in bitmap mode, and what one in journal or in
direct mode writes on an image with a bitmap, by `docs/FORMAT.md` and by none of the program's code."""
import struct

from image_answers import Bytes, Geometry, Journal
from image_layout import DIRTY_BITMAP, FIXED_HMAC, FIXED_PADDING, RECALCULATING
from journal_program import SECTOR, Shape

JOURNAL = 8                     # the first sector behind the superblock
FIELDS = "<8sBBHIQIBB2xQ8x16s"  # all fields of the first sector
FLAGS, SIZE, REGION, POSITION = 24, 28, 29, 32      # where some of them begin


class Writes:
    """Sector writes on an image, in parts: each part is synced before the next one begins, and the sectors of a part
    may come in any order. A sector that is as it is to be may be written, or not: it does not stand here."""

    def __init__(self, image, key=None):
        self.now, self.key, self.parts = bytearray(image), key, []
        self.geometry, self.shape = Geometry(Bytes(self.now)), Shape(image)

    def image(self):
        return bytes(self.now)

    def put(self, at, content):
        self.now[at:at + len(content)] = content

    def part(self, put):
        """A part: what is put of the image, sector by sector."""
        before = bytes(self.now)
        put()
        writes = [(sector, bytes(self.now[sector * SECTOR:(sector + 1) * SECTOR]))
                  for sector in range(len(before) // SECTOR)
                  if before[sector * SECTOR:(sector + 1) * SECTOR] != self.now[sector * SECTOR:(sector + 1) * SECTOR]]
        if writes:
            self.parts.append(writes)

    def put_tag(self, block, tag):
        g = self.geometry
        area, within = divmod(block * g.spb, g.interleave)
        begin = JOURNAL + g.journal + area * (g.tag_run + g.interleave)
        self.put(begin * SECTOR + within // g.spb * g.fields.tag_size, tag)

    def put_empty(self, sectors, number):
        for sector in sectors:
            self.put((JOURNAL + sector) * SECTOR, self.shape.empty(sector, number))

    def put_zeros(self, sectors):
        """Zeros in the place of a bitmap of so many sectors."""
        self.put(JOURNAL * SECTOR, bytes(sectors * SECTOR))

    def make_tags(self):
        for block in self.geometry.awaiting():
            content, _ = self.geometry.placed(block)
            self.put_tag(block, self.geometry.tag_of(block, content, self.key))

    def put_fields(self, flags, region):
        """The first sector with these flags and regions, and the version that these flags ask for at least. Where tags
        were to be made from the position on, it is at the end now."""
        f = self.geometry.fields
        least = 5 if flags & FIXED_HMAC else 4 if flags & FIXED_PADDING else 3 if flags & DIRTY_BITMAP else 1
        position = f.provided if f.flags & RECALCULATING else f.recalculate
        self.put(0, struct.pack(FIELDS, b"integrt\0", max(least, f.version), f.log2_interleave, f.tag_size, f.sections,
                                f.provided, flags, f.log2_spb, region, position, f.salt))


class Opening(Writes):
    """The sector writes of an opening of an image with a journal."""

    def __init__(self, image, key=None):
        super().__init__(image, key)
        self.journal = Journal(self.geometry)
        self.entries = self.journal.entries(key)
        self.recover()

    # ---- the journal

    def recover(self):
        """Entries come to their places; then zero sectors are filled, or a journal that is half written is erased."""
        self.part(self.place_entries)
        if self.journal.state == "blank":
            first = range(self.geometry.fitting_bitmap())
            zeros = [sector for sector in first if not any(self.sector(JOURNAL + sector))]
            self.part(lambda: self.put_empty(zeros, self.journal.newest))
        elif self.journal.state != "rest":
            self.erase()

    def sector(self, sector):
        return bytes(self.now[sector * SECTOR:(sector + 1) * SECTOR])

    def place_entries(self):
        for block, (content, tag) in self.entries.items():
            self.put(self.geometry.sector_at(block * self.geometry.spb) * SECTOR, content)
            self.put_tag(block, tag)

    def erase(self):
        """All sectors become empty ones of the number two behind the newest: those of the newest one last."""
        numbers = self.shape.numbers(self.image())
        newest, number = self.journal.newest, (self.journal.newest + 2) % 4
        for is_newest in (False, True):
            sectors = [sector for sector, old in enumerate(numbers) if (old == newest) == is_newest]
            self.part(lambda some=sectors: self.put_empty(some, number))

    def is_empty(self):
        """Whether no entry of the journal at rest is used, and all its sectors have one number."""
        return not self.entries and len(set(self.shape.numbers(self.image()))) == 1

    # ---- the change to a bitmap

    def change(self):
        """The journal is emptied, the tags that await are made, zeros stand where the bitmap does, and then the first
        sector says so."""
        if self.journal.state == "rest" and not self.is_empty():
            self.erase()
        self.part(self.make_tags)
        self.part(lambda: self.put_zeros(self.geometry.fitting_bitmap()))
        flags = self.geometry.fields.flags & ~RECALCULATING | DIRTY_BITMAP
        self.part(lambda: self.put_fields(flags, self.geometry.fitting_region()))
        return self


class ChangeBack(Writes):
    """The sector writes of an opening in journal or in direct mode of an image with a bitmap: the tags that await are
    made, zeros stand where the bitmap did, behind it the journal is empty under the number 0, the first sector says so,
    and the zeros are filled."""

    def __init__(self, image, key=None):
        super().__init__(image, key)
        g = self.geometry
        self.part(self.make_tags)
        self.part(lambda: self.put_zeros(g.bitmap))
        self.part(lambda: self.put_empty(range(g.bitmap, g.journal), 0))
        self.part(lambda: self.put_fields(g.fields.flags & ~(RECALCULATING | DIRTY_BITMAP), g.fields.log2_region))
        self.part(lambda: self.put_empty(range(g.bitmap), 0))


def has_bitmap(image):
    """Whether an image has a bitmap."""
    return bool(image[FLAGS] & DIRTY_BITMAP)


def writes_of(image, mode, key=None):
    """The sector writes of an opening in a mode, in parts."""
    if has_bitmap(image):
        return [] if mode == "B" else ChangeBack(image, key).parts
    opening = Opening(image, key)
    return opening.change().parts if mode == "B" else opening.parts


def with_bitmap(image, key=None):
    """What an opening in bitmap mode leaves of an image with a journal."""
    return Opening(image, key).change().image()


def with_journal(image, key=None):
    """What an opening in journal or in direct mode leaves of an image with a bitmap."""
    return ChangeBack(image, key).image()


def with_clear_bits(image, key=None):
    """What a run in bitmap mode leaves of an image with a bitmap once it has read all blocks, where no bit is set of no
    region."""
    writes = Writes(image, key)
    writes.make_tags()
    if writes.geometry.set_regions():
        writes.put_zeros(writes.geometry.bitmap)
    return writes.image()


def recovered(image, key=None):
    """What an opening in journal mode leaves of it, where no tags are to be made."""
    return Opening(image, key).image()


def parts_of(events):
    """The sector writes of a program's calls, in parts that a sync ends."""
    parts = [[]]
    for event in events:
        if event[0] == "sync":
            parts.append([])
        elif event[0] == "write":
            parts[-1] += [(event[1] // SECTOR + k, event[2][k * SECTOR:(k + 1) * SECTOR])
                          for k in range(len(event[2]) // SECTOR)]
    return [part for part in parts if part]


def with_writes(image, writes):
    """The image with some sectors written."""
    left = bytearray(image)
    for sector, content in writes:
        left[sector * SECTOR:(sector + 1) * SECTOR] = content
    return bytes(left)
