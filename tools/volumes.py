"""What tools/volume, tools/convert, tools/records, tools/settings, tools/shares and tools/profile know of stores: the variable store in a firmware volume or SPI dump, what
keeps a region from being sound in words, images made of entries, what a start-up finds in them, and what can be read of a store that no start-up would take."""
import argparse
import struct

from desk import Refused, about, read, shown, tell
from reader import BLOCK, FORMS, HEADER, NEW, blocks_of, faults_of, header_of, is_blank, is_clean, is_idle, is_pending, values_of, walk, well_named

MOST_BLOCKS = 7
# the exit status of a tool that only reads, where not all of a store is as the papers allow
NOT_ALL = 4
# file system GUID of volumes for variables, as in EFI_FIRMWARE_VOLUME_HEADER
NV_DATA = bytes.fromhex("8D2BF1FF96768B4CA9852747075B4F50")
# EDK II's work block for fault-tolerant writes: signature, checksum, state, length of the queue behind it
WORK_BLOCK = bytes.fromhex("2B29589E687C7D49A0CE6500FD9F1B95")
WORK_HEADER, WRITE_HEADER, WRITE_RECORD = 32, 40, 40
# zero vector, file system, length, "_FVH", attributes, header length, checksum; then the block map
VOLUME = struct.Struct("<16s16sQ4sIHH")


# ---- the store in a dump


class Store:
    """of the volume at an offset of a dump: its form and where its bytes stand, or what is wrong with it"""

    def __init__(self, dump, at):
        self.at, self.wrong = at, None
        (_, self.system, length, _, _, header, _) = VOLUME.unpack_from(dump, at)
        self.begin = at + header
        head = dump[self.begin:self.begin + HEADER].ljust(HEADER, b"\0")
        self.form, (self.size,) = form_of(head), struct.unpack_from("<I", head, 16)
        self.is_one = self.system == NV_DATA or self.form is not None
        words = dump[at:at + header // 2 * 2]
        if header % 2 or header < 72 or length > len(dump) - at or header + HEADER > length:
            self.wrong = "its header or length goes beyond it, or beyond the file"
        elif sum(struct.unpack("<%dH" % (len(words) // 2), words)) % 65536:
            self.wrong = "the checksum of its header is wrong"
        elif self.form is None:
            self.wrong = "it has no variable store where its header ends"
        elif head != header_of(self.size, self.form):
            self.wrong = "its variable store is not formatted or not healthy"
        elif self.size < HEADER or header + self.size > length:
            self.wrong = "its variable store is longer than it, or too short"
        elif interrupted(dump[self.begin + self.size:at + length]):
            self.wrong = "EDK II was interrupted in rewriting it, and finishes that when the machine boots"

    def __str__(self):
        return "the store in the volume at 0x%X" % self.at

    def walked(self, dump):
        """its bytes, and the entries in them with the offset of the tail"""
        held = dump[self.begin:self.begin + self.size]
        return (held, *walk(held, self.form))

    def sound_bytes(self, dump):
        """the same of one that is sound"""
        held, entries, tail = self.walked(dump)
        demand_sound(self, entries, len(held))
        return held, entries, tail


def interrupted(behind):
    """whether EDK II's last fault-tolerant write has its copy complete in the spare and its destination not; `behind` is the volume behind its store"""
    at = behind.find(WORK_BLOCK)
    if at < 0:
        return False
    at += WORK_HEADER
    pending = False
    # a queue of writes: a header and its records; a bit is set by clearing it: allocated 1, complete 4; of a record spare complete 2, destination complete 4
    while at + WRITE_HEADER <= len(behind) and not behind[at] & 1:
        records, private = struct.unpack_from("<QQ", behind, at + 24)
        step = WRITE_RECORD + private
        if WRITE_HEADER + records * step > len(behind) - at:
            break
        states = [behind[at + WRITE_HEADER + i * step] for i in range(records)]
        pending = bool(behind[at] & 4) and any(not state & 2 and state & 4 for state in states)
        at += WRITE_HEADER + records * step
    return pending


def stores_of(dump):
    found, at = [], dump.find(b"_FVH")
    while at >= 0:
        if at >= 40 and at + 16 <= len(dump):
            store = Store(dump, at - 40)
            if store.is_one:
                found.append(store)
        at = dump.find(b"_FVH", at + 1)
    return found


def the_store(dump, at):
    """the one that is meant; one that is damaged counts as a second"""
    found = [store for store in stores_of(dump) if at is None or store.at == at]
    if not found:
        raise Refused("no volume of variables" + (" at 0x%X" % at if at is not None else ""))
    if len(found) > 1:
        raise Refused("volumes of variables at %s: say which with --at" % ", ".join("0x%X" % store.at + (" (damaged)" if store.wrong else "") for store in found))
    if found[0].wrong:
        raise Refused("the volume at 0x%X: %s" % (found[0].at, found[0].wrong))
    return found[0]


# ---- what a call or a start-up would refuse


def named(entry):
    """of an entry whose name is well formed"""
    return "%s of vendor %s" % (shown(entry.name.decode("utf-16-le", errors="surrogatepass")[:-1]), entry.vendor.hex().upper())


def in_words(entry, why):
    """which entry, and why"""
    return "%s %s" % (named(entry) if well_named(entry.name) else "the entry at 0x%X" % entry.at, why)


def demand_sound(whose, entries, length):
    """refuses entries of a region that is not sound, by the first that is at fault"""
    for entry, why, _ in faults_of(entries, length):
        raise Refused("%s: %s" % (whose, in_words(entry, why)))


def left_over(region, tail, form):
    """in words, what is in the free part further on than a header that a power cut has left begun, or None; it may be entries after a damaged one"""
    if is_blank(region[tail + form.entry:]):
        return None
    return "at 0x%X of it no entry begins, and there is something further on than a header begun" % tail


def readable(whose, region, entries, tail, form):
    """the entries that can be read, and in words what cannot, or is not as the papers allow"""
    faults = list(faults_of(entries, len(region)))
    unread = {entry for entry, _, is_read in faults if not is_read}
    said = ["%s: %s%s" % (whose, in_words(entry, why), "" if is_read else ": skipped") for entry, why, is_read in faults]
    more = left_over(region, tail, form)
    return [entry for entry in entries if entry not in unread], said + (["%s: %s: skipped" % (whose, more)] if more else [])


# ---- images


def form_of(image):
    """the form whose signature it begins with, or None"""
    return next((form for form in FORMS if image.startswith(form.signature)), None)


def parts_of(image):
    """region, work block and spare"""
    blocks = blocks_of(len(image))
    if blocks is None:
        raise Refused("the image has %d bytes, and an image has 4,096 * (2b + 1) with b from 1 to 7" % len(image))
    return image[:BLOCK * blocks], image[BLOCK * blocks:BLOCK * (blocks + 1)], image[BLOCK * (blocks + 1):]


def walked_region(region):
    """the form of a region, and its entries with the offset of the tail"""
    form = form_of(region)
    if form is None or region[:HEADER] != header_of(len(region), form):
        raise Refused("the image has no region's header")
    return (form, *walk(region, form))


def ready_region(image):
    """the form of an image that a call would accept, its region, and the entries with the offset of the tail"""
    region, work, spare = parts_of(image)
    form, entries, tail = walked_region(region)
    demand_sound("the image", entries, len(region))
    if not (is_clean(region, form) and is_idle(work) and is_blank(spare)):
        raise Refused("the image is as a power cut left it: " + ("start up first" if form is NEW else "let its station start up first"))
    return form, region, entries, tail


def pending_form(image):
    """the form of the spare, where a start-up would finish a compaction from it: that of the region, or of none where the region has none"""
    if blocks_of(len(image)) is None:
        return None
    region, work, spare = parts_of(image)
    own = form_of(region)
    return next((form for form in FORMS if own in (None, form) and is_pending(work, spare, form)), None)


def entries_of_image(image):
    """the entries that can be read where a start-up looks, whether that is the spare, and in words what cannot be read"""
    region, _, spare = parts_of(image)
    pending = pending_form(image) is not None
    held = spare if pending else region
    form, entries, tail = walked_region(held)
    entries, faults = readable("the image", held, entries, tail, form)
    return entries, pending, faults


def entries_of(held, at, blocks):
    """the same of an image, a volume or a dump"""
    if blocks is not None:
        begin = at or 0
        image = held[begin:begin + BLOCK * (2 * blocks + 1)]
        if len(image) < BLOCK * (2 * blocks + 1):
            raise Refused("an image of %d blocks has %d bytes, and from 0x%X on there are %d" % (blocks, BLOCK * (2 * blocks + 1), begin, len(image)))
        return entries_of_image(image)
    if at is None and (form_of(held) is not None or pending_form(held) is not None):
        return entries_of_image(held)
    if at is None and not stores_of(held):
        raise Refused("no store: neither an image nor a volume of variables; for an image inside a dump, --at and --blocks say where it is")
    store = the_store(held, at)
    region, entries, tail = store.walked(held)
    entries, faults = readable(store, region, entries, tail, store.form)
    return entries, False, faults


def values_in(path, at, blocks):
    """for a tool that only reads: the values of a file that can be read, and the exit status; the rest is reported"""
    return values_held(path, read(path), at, blocks)


def values_held(path, held, at, blocks):
    """the same of a file that was read"""
    with about(path):
        entries, pending, faults = entries_of(held, at, blocks)
    if pending:
        tell("%s: the power failed in a compaction, and no start-up has finished it: read from the spare" % path)
    for fault in faults:
        tell("%s: %s" % (path, fault))
    return values_of(entries), NOT_ALL if faults else 0


def region_size(held, at, blocks):
    """of the image that is meant, in the new form"""
    begin = at or 0
    blocks = blocks or blocks_of(len(held))
    if blocks is None:
        raise Refused("no image; of a volume make one with tools/volume image; for an image inside a dump, --at and --blocks say where it is")
    image = held[begin:begin + BLOCK * (2 * blocks + 1)]
    if blocks_of(len(image)) == blocks and (pending_form(image) or form_of(parts_of(image)[0])) not in (NEW, None):
        raise Refused("it is in the plain form, whose variables take other bytes than after the move: tools/convert")
    return BLOCK * blocks


def with_blocks(blocks, entries, form):
    """an image of a region header and these bytes"""
    return (header_of(BLOCK * blocks, form) + entries).ljust(BLOCK * (2 * blocks + 1), b"\xFF")


def blocks_for(used, blocks, whose):
    """so many as are asked for, or as few as hold the bytes used"""
    least = -(-used // BLOCK)
    if least > MOST_BLOCKS:
        raise Refused("%s: %d bytes are used, and an image holds %d" % (whose, used, MOST_BLOCKS * BLOCK))
    if blocks is not None and least > blocks:
        raise Refused("%s: %d bytes are used, which takes %d blocks" % (whose, used, least))
    return blocks or least


# ---- arguments


def offset_of(text):
    """of --at"""
    try:
        offset = int(text, 0)
    except ValueError:
        raise argparse.ArgumentTypeError("this is no offset: %s" % text) from None
    if offset < 0:
        raise argparse.ArgumentTypeError("an offset is 0 or more: %s" % text)
    return offset


def add_place(parser):
    """where a store is in its file, and how large its region is"""
    parser.add_argument("--at", type=offset_of)
    parser.add_argument("--blocks", type=int, choices=range(1, MOST_BLOCKS + 1))
