"""Rules for settings, document 02, request (e), of a text whose form tools/settings tells: which data they forbid, and what no data can meet."""
import re

from desk import Refused, counted, number_of, shown, tell, vendor_of, vendor_text
from lines import made_of, name_of
from reader import LARGEST_DATA

MOST_RULES, MOST_NUMBERS, WIDTHS = 32, 8, (1, 2, 4)


def two_of(text, what):
    """A..B"""
    low, dots, high = text.partition("..")
    if not dots:
        raise Refused("%s: %s is not of the form LOW..HIGH" % (what, text))
    return number_of(low, what), number_of(high, what)


class Rule:
    def __init__(self, line, name, vendor):
        self.line, self.text, self.vendor = line, name, vendor_of(vendor)
        self.in_memory = "-" not in vendor
        self.name = name_of(name)
        # what every value meets: the library's rules all have sizes and a field
        self.least, self.most, self.fixed = 1, LARGEST_DATA, False
        self.at, self.width, self.numbers, self.low, self.high = 0, 1, None, 0, 255

    def key(self):
        return self.name, self.vendor

    def asks(self):
        """in the form of the file, but for what is shown of the name"""
        name = shown(self.text)
        name = '"%s"' % name if re.search("[ #]", name) else name
        field = "in " + ",".join(map(str, self.numbers)) if self.numbers is not None else "between %d..%d" % (self.low, self.high)
        return "%s %s size %d..%d%s at %d width %d %s" % (
            name, vendor_text(self.vendor), self.least, self.most, " read-only" if self.fixed else "", self.at, self.width, field)

    def allows(self, number):
        return number in self.numbers if self.numbers is not None else self.low <= number <= self.high

    def broken_by(self, data):
        """in words, or None"""
        if not self.least <= len(data) <= self.most:
            return "%s, and %d..%d are allowed" % (counted(len(data), "byte"), self.least, self.most)
        if self.at + self.width > len(data):
            return "%s, and the field ends at %d" % (counted(len(data), "byte"), self.at + self.width)
        number = int.from_bytes(data[self.at:self.at + self.width], "little")
        if not self.allows(number):
            allowed = ", ".join(map(str, self.numbers)) if self.numbers is not None else "%d..%d" % (self.low, self.high)
            return "the number at %d is %d, and allowed: %s" % (self.at, number, allowed)
        return None

    def shortest(self):
        return max(self.least, self.at + self.width)

    def longest(self):
        return min(self.most, LARGEST_DATA)

    def warnings(self, others):
        """why no data can meet it, by itself or with one of the others for its variable, or a number of it be met"""
        if self.numbers is None and self.low > self.high:
            yield "%d is above %d: no data meet it" % (self.low, self.high)
        if self.least > self.most or self.most == 0 or self.least > LARGEST_DATA:
            yield "no data have size %d..%d" % (self.least, self.most)
        elif self.shortest() > self.longest():
            yield "the field ends at %d, and data have at most %s: no data meet it" % (self.shortest(), counted(self.longest(), "byte"))
        else:
            yield from self.excluded_by(others)
        for number in self.numbers if self.numbers is not None else [self.low]:
            if number >= 256 ** self.width:
                yield "%d does not go into %s" % (number, counted(self.width, "byte"))


    def excluded_by(self, others):
        """the first that can be met, but not with it"""
        for other in others:
            if other.shortest() > other.longest():
                continue
            if self.shortest() > other.longest():
                return ["at least %s, and at most %d by line %d: no data meet both" % (counted(self.shortest(), "byte"), other.longest(), other.line)]
            if other.shortest() > self.longest():
                return ["at most %s, and at least %d by line %d: no data meet both" % (counted(self.longest(), "byte"), other.shortest(), other.line)]
        return []


def read_field(rule, words):
    rule.at = number_of(words.next("an offset"), "at")
    words.expect("width")
    rule.width = number_of(words.next("a width"), "width")
    if rule.width not in WIDTHS:
        raise Refused("width %d: a field has 1, 2 or 4 bytes" % rule.width)
    how = words.next("in or between")
    if how == "between":
        rule.low, rule.high = two_of(words.next("LOW..HIGH"), "between")
    elif how == "in":
        rule.numbers = [number_of(one, "in") for one in words.next("a list of numbers").split(",")]
        if len(rule.numbers) > MOST_NUMBERS:
            raise Refused("%d numbers: a list has up to %d" % (len(rule.numbers), MOST_NUMBERS))
    else:
        raise Refused("%s where in or between is expected" % how)


def read_size(rule, words):
    text = words.next("a size")
    if ".." in text:
        rule.least, rule.most = two_of(text, "size")
    else:
        rule.least = rule.most = number_of(text, "size")


def read_only(rule, _words):
    rule.fixed = True


ASKED = {"size": read_size, "read-only": read_only, "at": read_field}


def rule_of(line, words):
    rule = Rule(line, words.next("a name"), words.next("a vendor GUID"))
    seen = set()
    while words:
        word = words.next("")
        if word not in ASKED:
            raise Refused("%s where %s is expected" % (word, ", ".join(ASKED)))
        if word in seen:
            raise Refused("%s twice" % word)
        seen.add(word)
        ASKED[word](rule, words)
    if not seen:
        raise Refused("nothing is asked of it: size, read-only or at")
    return rule


def rules_of(path):
    """of a text, whose warnings are reported"""
    rules = made_of(path, rule_of, MOST_RULES, "a rule too many")
    if not rules:
        tell("%s: warning: there are no rules" % path)
    for i, rule in enumerate(rules):
        if rule.in_memory:
            tell("%s:%d: a vendor without dashes is its bytes in memory: %s" % (path, rule.line, vendor_text(rule.vendor)))
        for warning in rule.warnings([other for other in rules[:i] if other.key() == rule.key()]):
            tell("%s:%d: warning: %s" % (path, rule.line, warning))
    return rules
