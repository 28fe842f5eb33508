"""The images that `checks/change` opens in another mode than theirs. With a journal: new, with entries in place and not
in place, half written, half erased and blank ones, and with tags that are to be made anew. With a bitmap of which no
bit, one, some or all are set. Both under a key and without."""
import struct

from change_rules import FLAGS, JOURNAL, POSITION, Opening, with_bitmap, with_writes
from image_answers import Answers, Bytes, Geometry
from image_layout import RECALCULATING
from journal_program import SECTOR, changed, mixed, read_file, write_file

KEY = b"a key of some bytes"
KEYED = ("--integrity", "hmac-sha256", "--integrity-key-file")
ONE = ("one section", 256, "--interleave-sectors 8 --sections 1 --log2-blocks-per-bit 0")
THREE = ("three sections", 512, "--interleave-sectors 8 --sections 3 --tag-size 20 --log2-blocks-per-bit 2")
WIDE = ("blocks of 4096", 1024, "--interleave-sectors 32 --sections 2 --sector-size 4096 --salt " + "5a" * 16)
# Which images are made of each form: whether there is a key, the journals, and where tags are to be made anew from.
SETS = (
    (ONE, False, ("new", "entries", "closed", "mixed", "erasing", "blank"), (None,)),
    (ONE, True, ("new", "entries", "mixed", "erasing", "blank"), (None,)),
    (ONE, False, ("new", "entries", "mixed", "erasing", "blank"), ("front", "middle", "end")),
    (ONE, True, ("new", "entries", "blank"), ("front", "middle", "end")),
    (THREE, False, ("new", "entries", "closed", "mixed", "erasing", "blank"), (None, "middle")),
    (THREE, True, ("entries", "mixed"), (None, "front")),
    (WIDE, False, ("entries", "erasing", "blank"), (None, "middle")),
)
# Which images with a bitmap are made of each form: whether there is a key, the bits that are set, and whether a flag of
# old says that tags are to be made anew.
BITMAPS = (
    (ONE, False, ("no bit", "one bit", "all bits"), False),
    (ONE, True, ("no bit", "one bit", "all bits"), False),
    (ONE, False, ("some bits",), True),
    (THREE, False, ("no bit", "one bit", "some bits"), False),
    (THREE, True, ("one bit", "all bits"), True),
    (WIDE, False, ("no bit", "all bits"), False),
)


class Image:
    """An image, its key if it has one, and the bytes of its blocks."""

    def __init__(self, name, content, key, is_cut_everywhere):
        self.name, self.content, self.key, self.is_cut_everywhere = name, content, key, is_cut_everywhere
        self.blocks = [content for content, _ in Answers(Bytes(content), key).cells()]

    def words(self, folder):
        """The words of its key, which stands in a folder."""
        if self.key is None:
            return []
        write_file(f"{folder}/key", self.key)
        return [*KEYED, f"{folder}/key"]


def images(program, judge, folder):
    """All images."""
    made = []
    for form, is_keyed, kinds, places in SETS:
        journals = journals_of(program, judge, folder, form, is_keyed)
        for kind in kinds:
            for place in places:
                name = f"{form[0]}{', a key' if is_keyed else ''}, {kind}{', tags from the ' + place if place else ''}"
                content = with_tags_to_make(journals[kind], place) if place else journals[kind]
                made.append(Image(name, content, KEY if is_keyed else None, form is ONE and not place))
    for form, is_keyed, kinds, is_old in BITMAPS:
        key = KEY if is_keyed else None
        closed = with_bitmap(journals_of(program, judge, folder, form, is_keyed)["closed"], key)
        for kind in kinds:
            name = f"{form[0]}{', a key' if is_keyed else ''}, {kind}{', a flag of old' if is_old else ''}"
            made.append(Image(name, with_bits(closed, kind, is_old), key, form is ONE))
    return made


def with_bits(image, kind, is_old):
    """An image with a bitmap with some bits set, and some tags of their blocks altered."""
    made = bytearray(image)
    count = Geometry(Bytes(image)).region_count()
    regions = {"no bit": range(0), "one bit": [min(5, count - 1)], "some bits": range(0, count, 3),
               "all bits": range(count)}[kind]
    for region in regions:
        made[JOURNAL * SECTOR + region // 8] |= 1 << region % 8
    if is_old:
        struct.pack_into("<I", made, FLAGS, made[FLAGS] | RECALCULATING)
        struct.pack_into("<Q", made, POSITION, 16)
    return with_altered_tags(bytes(made))


def journals_of(program, judge, folder, form, is_keyed):
    """The images of a form with each kind of journal."""
    file = f"{folder}/made"
    key = KEY if is_keyed else None
    words = []
    if is_keyed:
        write_file(f"{folder}/key", KEY)
        words = [*KEYED, f"{folder}/key"]

    def made_of(image, script):
        """What a run in journal mode leaves of an image."""
        write_file(file, image)
        status, text = program.run(["run", file, "--mode", "J", *words], script)
        judge(f"{form[0]}, a script", status == (2 if script.endswith("frob\n") else 0), text)
        return read_file(file)

    write_file(file, bytes(form[1] * SECTOR))
    told = program.run(["format", file, *form[2].split(), *words])
    judge(f"{form[0]}, made", told[0] == 0, told)
    new = read_file(file)
    writes = "fill 5 1 aa\nfill 20 3 bb\nflush\n"
    entries, closed = made_of(new, f"{writes}frob\n"), made_of(new, writes)
    later = made_of(closed, "fill 6 1 cc\nfill 21 5 dd\nflush\nfrob\n")
    some = changed(closed, later)
    half = mixed(closed, later, some[:len(some) // 2])
    return {"new": new, "entries": entries, "closed": closed, "mixed": half,
            "erasing": behind_some(half, key, 20, False), "blank": behind_some(closed, key, 3, True)}


def behind_some(image, key, count, in_zeros):
    """The image behind some writes of its change: of those of its erasure, or of the zeros in the bitmap's place."""
    opening = Opening(image, key).change()
    before = [part for part in opening.parts[:-2] if in_zeros or not is_of_journal(opening, part)]
    of_journal = [part for part in opening.parts[:-2] if is_of_journal(opening, part)]
    part = opening.parts[-2] if in_zeros else of_journal[0]
    return with_writes(image, sum(before, []) + part[:count])


def is_of_journal(opening, part):
    """Whether the writes of a part are those of sectors of the journal."""
    return part[0][0] in range(8, 8 + opening.geometry.journal)


def with_tags_to_make(image, place):
    """The image with tags to be made anew from a sector on, and some tags of these altered."""
    made = bytearray(image)
    provided, = struct.unpack_from("<Q", made, 16)
    position = {"front": 0, "middle": provided // 2 + 3, "end": provided}[place]
    struct.pack_into("<I", made, FLAGS, made[FLAGS] | RECALCULATING)
    struct.pack_into("<Q", made, POSITION, position)
    return with_altered_tags(bytes(made))


def with_altered_tags(image):
    """The image with some of the tags altered that are to be made anew."""
    made, geometry = bytearray(image), Geometry(Bytes(image))
    for block in geometry.awaiting():
        area, within = divmod(block * geometry.spb, geometry.interleave)
        begin = 8 + geometry.journal + area * (geometry.tag_run + geometry.interleave)
        made[begin * SECTOR + within // geometry.spb * geometry.fields.tag_size] ^= block % 3
    return bytes(made)
