"""Where blocks, tags and bits stand on an image, by the format and by none of the program's code."""
import hashlib
import hmac
import struct

from journal_program import SECTOR, Shape

BITMAP = 8                      # where a bitmap begins, and how many sectors it has on a small image
RECALCULATING, DIRTY_BITMAP, FIXED_PADDING, FIXED_HMAC = 2, 4, 8, 16


class Layout:
    """The numbers of an image that follow from its superblock."""

    def __init__(self, image):
        self.image, self.spb, self.log2_blocks = image, 1 << image[28], image[29]
        interleave, self.tag_size = struct.unpack_from("<BH", image, 9)
        provided, self.flags = struct.unpack_from("<QI", image, 16)
        self.blocks, self.area = provided // self.spb, (1 << interleave) // self.spb
        pad = 4096 if self.flags & FIXED_PADDING else 131072
        self.tags = -(-self.area * self.tag_size // pad) * pad // SECTOR
        self.first = BITMAP + Shape(image).journal
        self.position, = struct.unpack_from("<Q", image, 32)

    def regions_set(self):
        """The regions of the device whose bit is set."""
        regions = -(-self.blocks >> self.log2_blocks)
        return [region for region in range(regions) if self.image[BITMAP * SECTOR + region // 8] >> region % 8 & 1]

    def awaiting(self):
        """The blocks that await their tags: those of these regions with a bitmap, and else those from the position on."""
        if self.flags & DIRTY_BITMAP:
            return {block for region in self.regions_set() for block in self.region(region)}
        return set(range(self.position // self.spb, self.blocks)) if self.flags & RECALCULATING else set()

    def region(self, region):
        """The blocks of a region."""
        return range(region << self.log2_blocks, min(self.blocks, (region + 1) << self.log2_blocks))

    def tag_place(self, block):
        """The first byte of a block's tag."""
        area, number = divmod(block, self.area)
        return (self.first + area * (self.tags + self.area * self.spb)) * SECTOR + number * self.tag_size

    def place(self, block):
        """The first byte of a block's data."""
        area, number = divmod(block, self.area)
        return (self.first + area * (self.tags + self.area * self.spb) + self.tags + number * self.spb) * SECTOR

    def stored(self, block):
        """The data of a block, and its tag."""
        data, tag = self.place(block), self.tag_place(block)
        return self.image[data:data + self.spb * SECTOR], self.image[tag:tag + self.tag_size]

    def tag_of(self, block, data, key):
        """The tag of a block's data: the digest of the salt, if there is one, the number of its first sector, and the data."""
        salt = self.image[48:64] if self.flags & FIXED_HMAC else b""
        message = salt + struct.pack("<Q", block * self.spb) + data
        digest = hmac.new(key, message, "sha256") if key else hashlib.sha256(message)
        return digest.digest()[:self.tag_size]

    def bad(self, key, passed):
        """The lines of the blocks whose tag is not that of their data, but for those that are passed."""
        lines = []
        for block in sorted(set(range(self.blocks)) - passed):
            data, stored = self.stored(block)
            wanted = self.tag_of(block, data, key)
            if stored != wanted:
                lines.append(f"bad {block} stored {stored.hex()} computed {wanted.hex()}\n")
        return lines
