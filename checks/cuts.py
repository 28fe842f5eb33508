"""What a cut of the power may leave of an image, and of the writes of a script."""
from journal_program import SECTOR


def image_left(drawn, before, events):
    """The image that is left by these events: what was synced, and of what was written behind that any of the sectors."""
    synced, pending = bytearray(before), []
    for event in events:
        if event[0] == "sync":
            for sector, content in pending:
                synced[sector * SECTOR:(sector + 1) * SECTOR] = content
            pending = []
        elif event[0] == "write":
            pending += [(event[1] // SECTOR + k, event[2][k * SECTOR:(k + 1) * SECTOR])
                        for k in range(len(event[2]) // SECTOR)]
    share = drawn.choice((0.0, 0.5, 0.9, 1.0))
    for sector, content in pending:
        if drawn.random() < share:
            synced[sector * SECTOR:(sector + 1) * SECTOR] = content
    return bytes(synced)


def are_left(blocks, lines, writes, told):
    """Whether each block has what the last flush that was told settled, or what a later line has begun to write."""
    settled = max((n + 1 for n in range(min(told, len(lines)))
                   if lines[n] == "flush\n" or writes[n] and writes[n][3]), default=0)
    for block, content in enumerate(blocks):
        allowed, last = set(), 0
        for line, write in enumerate(writes[:told + 1]):
            if write and write[0] <= block < write[0] + write[1]:
                if line < settled:
                    last = write[2]
                else:
                    allowed.add(write[2])
        if content not in {bytes([byte]) * SECTOR for byte in allowed | {last}}:
            return False
    return True
