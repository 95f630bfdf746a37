"""What tools/lib adds to the text of the kit's module before it is compiled: words by which the compiler leaves out copies, each true of the text as it stands. No
instruction is changed, but that a fill with zeros goes which the next line overwrites.

By value. A parameter that goes by value inside the library is a pointer to where its caller has it, and the function first copies that. By Rattle's rules on
borrows nothing changes it while the function runs. So it is `noalias readonly`, of the size and alignment of the copy, where all that is done with the pointer is to
copy from it before the first call, and each call hands over a place of the caller's own, a local or what came to it by value, that is no other argument but one by
value. A session has 9,332 bytes.

By memory. A result that goes by memory is written to a place that the caller has for it alone. So its pointer is `noalias writable`, and `initializes` the place,
where the function does nothing with it but to copy the whole result there before each return, and each call hands over a local that is no argument of it. An exported
function hands its own on, as C's conventions have it.
"""
import re
import sys

HEAD = re.compile(r'define (internal )?[^@\n]*@"?([^"(]+)"?\((.*)\) (?:\w+ )*#\d+ \{$')
CALL = re.compile(r'call [^@]*@"([^"]+)"\((.*)\)$')
COPY = r"  call void @llvm\.memmove\.p0\.p0\.i64\(ptr %s, ptr %s, i64 (\d+), i1 false\)"
FILLED = re.compile(r"  call void @llvm\.memset\.p0\.i64\(ptr (%r\d+), i8 0, i64 (\d+), i1 false\)\n(?=" + COPY.replace(r"(\d+)", r"\2") % (r"\1", r"%[ar]\d+") + "$)", re.M)
PLAIN = "ptr noundef "


class Function:
    def __init__(self, text):
        self.head, _, self.body = text.partition("\n")
        found = HEAD.match(self.head)
        if found is None:
            sys.exit("marks: a function of a form that is not known: %s" % self.head)
        self.internal, self.name, self.parameters = bool(found[1]), found[2], found[3].split(", ") if found[3] else []
        self.lines = self.body.split("\n")
        self.alignments = {name: (int(size), int(align)) for name, size, align in re.findall(r"^  (%r\d+) = alloca \[(\d+) x i8\], align (\d+)$", self.body, re.M)}
        self.parts = dict(re.findall(r"^  (%r\d+) = getelementptr (?:inbounds )?(?:nuw )?i8, ptr (%[ar]\d+), ", self.body, re.M))
        self.calls = [(found[1], [one.split()[-1] for one in found[2].split(", ")] if found[2] else []) for found in map(CALL.search, self.lines) if found]
        # position: size and alignment of the copy if it is one of the whole, or None
        self.by_value = {at: held for at in range(len(self.parameters)) for held in self.copied(at)} if self.internal else {}
        self.by_memory = self.written() if self.internal else None

    def uses(self, name):
        return [line for line in self.lines if re.search(re.escape(name) + r"\b", line)]

    def copied(self, at):
        """One item if a parameter is only copied from, before the first call of a function."""
        name = "%%a%d" % at
        if self.parameters[at] != PLAIN + name:
            return
        first = next((number for number, line in enumerate(self.lines) if CALL.search(line) or line == ""), len(self.lines))
        begun, whole = set(self.lines[:first]), None
        for line in self.uses(name):
            part = re.fullmatch(r"  (%%r\d+) = getelementptr (?:inbounds )?(?:nuw )?i8, ptr %s, i64 \d+" % name, line)
            copies = [use for use in self.uses(part[1]) if use != line] if part else [line]
            if line not in begun or not all(use in begun and re.fullmatch(COPY % (r"%r\d+", re.escape(part[1] if part else name)), use) for use in copies):
                return
            if part is None:
                to, size = re.search(r"\(ptr (%r\d+), .*i64 (\d+),", line).groups()
                whole = self.alignments.get(to) if self.alignments.get(to, (0,))[0] == int(size) else whole
        if self.uses(name):
            yield whole

    def written(self):
        """Size and alignment of a result that is copied whole to the first pointer before each return, with which nothing else is done; or None."""
        if self.parameters[:1] != [PLAIN + "%a0"]:
            return None
        returns = [number for number, line in enumerate(self.lines) if line.startswith("  ret ")]
        copies = [re.fullmatch(COPY % ("%a0", r"(%r\d+)"), self.lines[number - 1]) for number in returns]
        held = {self.alignments.get(copy[1]) if copy else None for copy in copies}
        is_whole = len(held) == 1 and None not in held and {int(copy[2]) for copy in copies} == {next(iter(held))[0]}
        return next(iter(held)) if is_whole and len(self.uses("%a0")) == len(returns) and all(self.lines[number] == "  ret void" for number in returns) else None

    def place(self, name):
        """Of what a pointer is a part: a local or a parameter; None if it is from elsewhere."""
        while name in self.parts:
            name = self.parts[name]
        return name if name in self.alignments or name.startswith("%a") else None

    def own(self, place):
        """Whether a place is the function's own."""
        if place is None or place in self.alignments:
            return place is not None
        at = int(place[2:])
        return at in self.by_value or " byval(" in self.parameters[at]


def hold(functions):
    """Keeps what holds at each call."""
    named = {function.name: function for function in functions if function.internal}
    changed = True
    while changed:
        changed = False
        for caller in functions:
            for name, arguments in caller.calls:
                called = named.get(name)
                if called is None:
                    continue
                places = [caller.place(one) if one.startswith("%") else None for one in arguments]
                others = {place for at, place in enumerate(places) if at not in called.by_value}
                for at in [at for at in called.by_value if not caller.own(places[at]) or places[at] in others]:
                    del called.by_value[at]
                    changed = True
                if called.by_memory and (places[0] not in caller.alignments and caller.internal or places[0] is None or places[0] in places[1:]):
                    called.by_memory, changed = None, True


def marked(text):
    """the module's text with the words, and how many parameters and results have them"""
    begun, *texts = re.split(r"^(?=define )", text, flags=re.M)
    functions = [Function(one) for one in texts]
    for function in functions:
        # one whose address is taken may be called from elsewhere
        if function.internal and text.count('@"%s"' % function.name) != 1 + sum(name == function.name for caller in functions for name, _ in caller.calls):
            function.by_value, function.by_memory = {}, None
    hold(functions)
    named, values, results = {function.name: function for function in functions}, 0, 0
    for function in functions:
        words = dict.fromkeys(function.by_value, "noalias noundef readonly")
        words.update({at: words[at] + " align %d dereferenceable(%d)" % held[::-1] for at, held in function.by_value.items() if held})
        values += len(words)
        held = function.by_memory if function.internal else next((named[name].by_memory for name, arguments in function.calls if arguments[:1] == ["%a0"] and name in named), None)
        if held and function.parameters[0] == PLAIN + "%a0" and (function.internal or function.lines.count("  ret ptr %a0") == 1 and len(function.uses("%a0")) == 2):
            words[0] = "noalias noundef writable align {1} dereferenceable({0}) initializes((0, {0}))".format(*held)
            results += 1
        for at, one in words.items():
            function.head = function.head.replace(PLAIN + "%%a%d" % at, "ptr %s %%a%d" % (one, at), 1)
    return begun + "".join("%s\n%s" % (function.head, FILLED.sub("", function.body)) for function in functions), values, results


if __name__ == "__main__":
    with open(sys.argv[1], encoding="utf-8") as file:
        module, of_values, of_results = marked(file.read())
    if not of_values or not of_results:
        sys.exit("marks: no parameter by value, or no result by memory, of a form that is known")
    with open(sys.argv[1], "w", encoding="utf-8") as file:
        file.write(module)
