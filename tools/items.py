"""Settings, as profiles and seasons have them: a line's name, vendor GUID, attributes and value; a file's fields of one; the rule that a station refuses it with."""
import contextlib
import re

from desk import Refused, counted, number_of, shown, tell, vendor_of, vendor_text
from lines import name_of
from reader import ENTRY, LARGEST_DATA, has_record_name, is_key_name, is_mode_name, is_modems, well_named
from rules import WIDTHS

ATTRIBUTES = {"nv+bs": 0x03, "nv+bs+rt": 0x07}
ALLOWED = ", ".join("%s or %d" % one for one in ATTRIBUTES.items())
RT = 0x04
ESCAPE = re.compile(r"\\u([0-9A-Fa-f]{4})")


@contextlib.contextmanager
def refused_with(rule):
    """what is refused in it breaks a rule"""
    try:
        yield
    except Refused as why:
        raise Refused("refused with %d: %s" % (rule, why)) from None


def text_of(name):
    """of a name's bytes, without the zero character"""
    return name.decode("utf-16-le", errors="surrogatepass")[:-1]


class Item:
    """a setting; `where` it is, in words"""

    def __init__(self, where, name, vendor, attributes, data):
        self.where, self.name, self.vendor, self.attributes, self.data = where, name, vendor, attributes, data

    def __str__(self):
        name = shown(text_of(self.name)) if well_named(self.name) else "name bytes " + self.name.hex().upper()
        return "%s, %s of vendor %s" % (self.where, name, vendor_text(self.vendor))

    def key(self):
        return self.name, self.vendor

    def size(self):
        """of its entry, rounded"""
        return (ENTRY + len(self.name) + len(self.data) + 3) // 4 * 4


# ---- in a file


def groups_of(number):
    """"groups of seven bits, low group first, top bit set where another follows, shortest form" """
    return bytes([number]) if number < 0x80 else bytes([0x80 | number & 0x7F]) + groups_of(number >> 7)


def fields_of(item):
    """"for each attributes, name size, data size, GUID, name and data" """
    return groups_of(item.attributes) + groups_of(len(item.name)) + groups_of(len(item.data)) + item.vendor + item.name + item.data


# ---- in a text


def meant(text):
    """with what its escapes stand for"""
    if "\\" in ESCAPE.sub("", text):
        raise Refused("a backslash begins \\u and four hexadecimal digits, and is \\u005C itself")
    return ESCAPE.sub(lambda found: chr(int(found.group(1), 16)), text)


def attributes_of(words):
    word = words.next("attributes (%s)" % ALLOWED, "are")
    if word not in ATTRIBUTES and not word[:1].isdecimal():
        raise Refused("%s where attributes are expected: %s" % (word or "nothing", ALLOWED))
    attributes = ATTRIBUTES[word] if word in ATTRIBUTES else number_of(word, "attributes")
    if attributes not in ATTRIBUTES.values():
        raise Refused("refused with 25: attributes 0x%02X, and %s are allowed" % (attributes, " and ".join("%s (%d)" % one for one in ATTRIBUTES.items())))
    return attributes


def item_begun(line, words):
    """name, vendor and attributes; its data are still to come"""
    name = meant(words.next("a name"))
    with refused_with(3):
        name = name_of(name)
    vendor = words.next("a vendor GUID")
    item = Item("line %d" % line, name, vendor_of(vendor), attributes_of(words), b"")
    item.line, item.in_memory = line, "-" not in vendor
    return item


def tell_vendors(path, items):
    """which GUIDs a text has as bytes in memory"""
    for item in items:
        if item.in_memory:
            tell("%s:%d: a vendor without dashes is its bytes in memory: %s" % (path, item.line, vendor_text(item.vendor)))


def numbers_part(words):
    width = number_of(words.next("a width"), "width")
    if width not in WIDTHS:
        raise Refused("width %d: a number has 1, 2 or 4 bytes" % width)
    text = words.next("a number")
    if text != text.strip(",") or words and re.match("[,0-9]", words.words[0]):
        raise Refused("width %d: after %s a number is missing, or a blank is too much: no blank goes between numbers" % (width, text))
    numbers = [number_of(one, "width %d" % width) for one in text.split(",")]
    for number in numbers:
        if number >= 256 ** width:
            raise Refused("%d does not go into %s" % (number, counted(width, "byte")))
    return b"".join(number.to_bytes(width, "little") for number in numbers)


def bytes_part(words):
    digits = words.next("hexadecimal digits", "are")
    if not re.fullmatch("(?:[0-9A-Fa-f]{2})+", digits):
        raise Refused("bytes: %s is not two hexadecimal digits a byte" % digits)
    return bytes.fromhex(digits)


def text_part(words):
    text = meant(words.next("a text"))
    try:
        # two units of one character may be two escapes
        return text.encode("utf-16-le", errors="surrogatepass").decode("utf-16-le").encode("utf-8")
    except UnicodeDecodeError:
        raise Refused("text: half a character, which UTF-8 does not have") from None


PARTS = {"width": numbers_part, "bytes": bytes_part, "text": text_part}


def value_of(words, expected, ends=()):
    """the data of one part or several, up to a word that ends them or to the line's end; `expected` is named where there is no part"""
    data = b""
    while True:
        word = words.next("a value")
        if word not in PARTS:
            raise Refused("%s where %s is expected" % (word, expected))
        data += PARTS[word](words)
        if not words or words.words[0] in ends:
            return data


# ---- what a station says to one


class Station:
    """what is known of one: its rules, the values of its image, or None; the modem's GUID, or None, and whether the modem asks; the reserve at runtime, or None"""

    def __init__(self, rules=(), values=None, modem=None, by_modem=False, runtime=None):
        self.rules, self.modem, self.by_modem, self.runtime = rules, modem, by_modem, runtime
        self.values = None if values is None else {value.key(): value for value in values}

    def is_asking(self, entry):
        return (self.modem is not None and is_modems(entry, self.modem)) == self.by_modem

    def stands(self, item):
        return None if self.values is None else self.values.get(item.key())

    def refusal(self, item):
        """the first rule that the item breaks, and why; or None"""
        value, forbidden = self.stands(item), self.forbids(item)
        if not well_named(item.name):
            return 3, "a name has 1 to 63 characters and a zero character, and no earlier zero"
        if not self.is_asking(item):
            return 22, "the name is %s" % ("ours" if self.by_modem else "the modem's")
        if self.runtime is not None and not item.attributes & RT:
            return 4, "attributes 0x%02X, and at runtime they are 0x07" % item.attributes
        if is_key_name(item):
            return 5, "a profile has no attributes that a key may have"
        if has_record_name(item):
            return 17, "a profile has no attributes that a hardware error record may have"
        if value is not None and value.attributes != item.attributes:
            return 7, "attributes 0x%02X, and the value there has 0x%02X" % (item.attributes, value.attributes)
        if is_mode_name(item):
            return 24, "no set or profile changes PlatMode"
        if not item.data and self.values is not None and value is None:
            return 11, "there is no value to delete"
        if len(item.data) > LARGEST_DATA:
            return 12, "%d bytes of data, and at most %d are allowed" % (len(item.data), LARGEST_DATA)
        return (21, forbidden) if forbidden else None

    def forbids(self, item):
        """in words, by which rule for its name; or None"""
        for rule in self.rules:
            if rule.key() == item.key():
                why = "it is read-only" if rule.fixed else rule.broken_by(item.data) if item.data else None
                if why:
                    return "line %d: %s" % (rule.line, why)
        return None


def demand(item):
    """refuses an item that every station refuses"""
    broken = Station().refusal(item)
    if broken:
        raise Refused("refused with %d: %s" % broken)
