"""A reader of images that follows document 01, "Flash image" and rules 1 and 2, sentence by sentence, and document 02, requests (d), for the plain form, and
(a), for hardware error records, and (f), for whose a name is; nothing in it comes from the store's own code."""
import re
import struct

BLOCK = 4096
HEADER = 28
STATES = (0xFF, 0x7F, 0x3F, 0x3E, 0x3D, 0x3C)
RECORDS = (0xFF, 0xFE, 0xFC, 0xF8)
ATTRIBUTES = (0x03, 0x07, 0x23, 0x27, 0x0F)
LARGEST_DATA = 2048
ERROR_RECORD = 0x08
RECORD_VENDOR = bytes.fromhex("DD6B4E417BE4CC47B244BB61020CF516")
# PK and KEK are EFI_GLOBAL_VARIABLE's, db, dbx and dbt EFI_IMAGE_SECURITY_DATABASE's
GLOBAL_VENDOR = bytes.fromhex("61DFE48BCA93D211AA0D00E098032B8C")
KEY_NAMES = {GLOBAL_VENDOR: ("PK", "KEK"), bytes.fromhex("CBB219D73A3D9645A3BCDAD00E67656F"): ("db", "dbx", "dbt")}


class Form:
    """"Each stored form has a header length of its own": the region's signature, and the fields of an entry's header"""

    def __init__(self, name, signature, *fields):
        self.name, self.signature = name, bytes.fromhex(signature)
        # start id, state, zero, attributes, what the form has of its own, sizes of name and data, vendor
        self.header = struct.Struct("<HBBI" + "".join(fields) + "II16s")
        self.entry = self.header.size
        self.nothing = [0 if field != "16s" else bytes(16) for field in fields]


# 01's form has monotonic count, time stamp and key index between attributes and sizes; the first recorders' has nothing there
NEW = Form("new", "782CF3AA7B949A43A1802E144EC37792", "Q", "16s", "I")
PLAIN = Form("plain", "1636CFDD7532644198B6FE85707FFE7D")
FORMS = NEW, PLAIN
SIGNATURE, ENTRY = NEW.signature, NEW.entry


def is_blank(part):
    """every byte is FF"""
    return part.count(0xFF) == len(part)


def blocks_of(length):
    """b, or None: "The image length is not 4,096 × (2b + 1) with b from 1 to 7." """
    for b in range(1, 8):
        if length == BLOCK * (2 * b + 1):
            return b
    return None


def header_of(length, form=NEW):
    """signature, size u32 = L, format 5A, state FE, then six zero bytes"""
    return form.signature + struct.pack("<I", length) + b"\x5A\xFE" + bytes(6)


class Entry:
    def __init__(self, region, at, form):
        start, self.state, _zero, self.attributes, *_, self.name_size, self.data_size, self.vendor = form.header.unpack_from(region, at)
        self.at, self.begins = at, start == 0x55AA
        at += form.entry
        # "FF header unfinished (the entry counts as 60 bytes)", 32 in the plain form; Python's numbers do not wrap
        self.end = at if self.state == 0xFF else at + self.name_size + self.data_size
        self.name = region[at:at + self.name_size]
        self.data = region[at + self.name_size:at + self.name_size + self.data_size]
        self.next = (self.end + 3) // 4 * 4

    def is_live(self):
        return self.state in (0x3F, 0x3E)

    def key(self):
        return self.name, self.vendor


def entry_of(value, form):
    """a value as the 3F entry that a move writes: count, stamp and key index are zero where the form has them"""
    header = form.header.pack(0x55AA, 0x3F, 0, value.attributes, *form.nothing, value.name_size, value.data_size, value.vendor)
    entry = header + value.name + value.data
    return entry + b"\xFF" * (-len(entry) % 4)


def walk(region, form=NEW):
    """"The walk starts at 28 and stops where under 60 bytes remain or no start id is found; the rest is the tail." In the plain form, under 32."""
    entries, at = [], HEADER
    while at + form.entry <= len(region):
        entry = Entry(region, at, form)
        if not entry.begins:
            break
        entries.append(entry)
        at = entry.next
    return entries, at


def well_named(name):
    """"A name is UTF-16, 1 to 63 characters and a zero character: 4 to 128 bytes, even, no earlier zero." """
    if len(name) % 2 or not 4 <= len(name) <= 128:
        return False
    characters = struct.unpack("<%dH" % (len(name) // 2), name)
    return characters[-1] == 0 and 0 not in characters[:-1]


def has_record_name(e):
    """"under GUID DD 6B 4E 41 .. only, with the name HwErrRec and four digits 0 to F in upper case" """
    return e.vendor == RECORD_VENDOR and re.fullmatch(rb"H\0w\0E\0r\0r\0R\0e\0c\0(?:[0-9A-F]\0){4}\0\0", e.name, re.S) is not None


def is_error_record(e):
    """a value with attribute 0x08"""
    return bool(e.attributes & ERROR_RECORD)


def is_key_name(e):
    return e.name in [(name + "\0").encode("utf-16-le") for name in KEY_NAMES.get(e.vendor, ())]


def is_mode_name(e):
    """"under the name PlatMode and PK's vendor GUID" """
    return e.vendor == GLOBAL_VENDOR and e.name == "PlatMode\0".encode("utf-16-le")


def is_modems(e, guid):
    """"All names under one vendor GUID, named in the session, are the modem's; the rest are ours, key names and error records always included." "PlatMode is ours, like
    the key names." """
    return e.vendor == guid and not is_key_name(e) and not is_mode_name(e) and not has_record_name(e)


def faults_of(entries, length):
    """each that keeps a region of these entries from being sound: the entry, in words why, and whether it can be read all the same"""
    seen = set()
    for e in entries:
        whole = e.state == 0xFF or e.end <= length
        if e.state not in STATES:
            yield e, "has state %02X" % e.state, False
        if not whole:
            yield e, "ends beyond the region, and none is found after it", False
        if not (e.is_live() and whole):
            continue
        if not well_named(e.name):
            yield e, "has a name that is not 1 to 63 characters and a zero character", False
            continue
        if (e.state, e.key()) in seen:
            yield e, "exists twice", False
            continue
        seen.add((e.state, e.key()))
        if not 1 <= e.data_size <= LARGEST_DATA:
            yield e, "has %d bytes of data, and 1 to 2,048 are allowed" % e.data_size, True
        elif e.attributes not in ATTRIBUTES:
            yield e, "has attributes 0x%02X, and %s are allowed" % (e.attributes, ", ".join("0x%02X" % one for one in sorted(ATTRIBUTES))), True
        elif is_error_record(e) and not has_record_name(e):
            yield e, "has attributes 0x%02X, and is by name and vendor no hardware error record" % e.attributes, True


def is_sound(region, entries, form=NEW):
    return region[:HEADER] == header_of(len(region), form) and not any(faults_of(entries, len(region)))


def is_clean(region, form=NEW):
    entries, tail = walk(region, form)
    return is_sound(region, entries, form) and is_blank(region[tail:])


def used_records(work):
    """of a work block that is well formed its used records, else None"""
    records, rest = work[:64], work[64:]
    used = records.rstrip(b"\xFF")
    right = (is_blank(rest)
             and all(r in RECORDS for r in records)
             and 0xFF not in used           # "no used record after an unused one"
             and 0xFC not in used[:-1])     # "FC only in the last used"
    return used if right else None


def is_idle(work):
    """well formed, and not ending in FC"""
    used = used_records(work)
    return used is not None and not used.endswith(b"\xFC")


def is_pending(work, spare, form=NEW):
    """"well formed, last used is FC, and the spare is a clean region" """
    used = used_records(work)
    return used is not None and used.endswith(b"\xFC") and is_clean(spare, form)


def values_of(entries):
    """"A name's value is its 3F entry, else its 3E entry." In flash order."""
    added = {e.key() for e in entries if e.state == 0x3F}
    return [e for e in entries if e.state == 0x3F or (e.state == 0x3E and e.key() not in added)]


def varlist(image):
    b = blocks_of(len(image))
    if b is None:
        return "refused 1\n"
    region, work, spare = image[:BLOCK * b], image[BLOCK * b:BLOCK * (b + 1)], image[BLOCK * (b + 1):]
    # "A call finds the region not clean, the spare not all FF, or the work block not well formed or ending in FC"
    if not (is_clean(region) and is_blank(spare) and is_idle(work)):
        return "refused 2\n"
    entries, tail = walk(region)
    values = values_of(entries)
    lines = ["region %d used %d live %d" % (len(region), tail, len(values))]
    for e in values:
        lines.append("%s %s %02X %d" % (e.vendor.hex().upper(), e.name.hex().upper(), e.attributes, e.data_size))
    return "\n".join(lines) + "\n"
