"""Texts for the desk: words on lines, in UTF-8, with LF or CR LF after a line; a # begins a comment. Rules for settings and profiles are such texts."""
import re

from desk import Refused, read

MOST_CHARACTERS = 63
# of a text, comments and all
MOST_BYTES = 1 << 20
WORD = re.compile(r'\s*(?:"([^"]*)"(?=\s|#|$)|([^\s"#]+)|(#.*|$))')


class Words:
    """of a line, one after another"""

    def __init__(self, words):
        self.words = words

    def __bool__(self):
        return bool(self.words)

    def next(self, what, is_or_are="is"):
        if not self.words:
            raise Refused("%s %s missing" % (what, is_or_are))
        return self.words.pop(0)

    def expect(self, word):
        got = self.next(word)
        if got != word:
            raise Refused("%s where %s is expected" % (got, word))


def words_of(text):
    words, at = [], 0
    while True:
        found = WORD.match(text, at)
        if not found:
            raise Refused("a quotation mark without its other")
        if found.group(3) is not None:
            return words
        words.append(found.group(1) if found.group(1) is not None else found.group(2))
        at = found.end()


def made_of(path, make, most, too_many):
    """what is made of the number and the words of each line that has words, up to so many; a refusal names the file and the line"""
    made = []
    for line, held in enumerate(read(path, MOST_BYTES).removeprefix(b"\xEF\xBB\xBF").replace(b"\r\n", b"\n").split(b"\n"), 1):
        try:
            if b"\r" in held:
                raise Refused("a CR without LF: lines end in LF or CR LF")
            words = Words(words_of(held.decode("utf-8")))
            if not words:
                continue
            one = make(line, words)
            if len(made) == most:
                raise Refused("%s: there are up to %d" % (too_many, most))
        except UnicodeDecodeError:
            raise Refused("%s:%d: not UTF-8" % (path, line)) from None
        except Refused as why:
            raise Refused("%s:%d: %s" % (path, line, why)) from None
        made.append(one)
    return made


def name_of(text):
    """the bytes of a variable's name: UTF-16 and a zero character"""
    name = text.encode("utf-16-le", errors="surrogatepass") + b"\0\0"
    if "\0" in text:
        raise Refused("a name has characters, none of them zero, and this one has a zero")
    if not 4 <= len(name) <= 2 * (MOST_CHARACTERS + 1):
        raise Refused("a name has 1 to %d characters, none of them zero, and this one %d" % (MOST_CHARACTERS, len(name) // 2 - 1))
    return name
