"""What every tool for the desk does alike: its arguments, files that are read up to a bound and written whole, what it says, and its end. A tool that could not say
all that it had to say does not end with 0, and has written no file."""
import argparse
import contextlib
import os
import re
import shutil
import struct
import sys
import traceback

TOOL = os.path.basename(sys.argv[0])
# the largest serial flash parts have 256 MiB
MOST_BYTES = 1 << 28


class Refused(Exception):
    """in one line, why"""


# ---- what is said


def shown(text):
    """characters that a terminal acts upon or does not show, control and bidirectional ones among them, as \\u and four digits for each unit of UTF-16"""
    units = lambda one: re.sub("....", r"\\u\g<0>", one.encode("utf-16-be", errors="surrogatepass").hex().upper())
    return "".join(one if one.isprintable() else units(one) for one in text)


def counted(number, what):
    return "%d %s%s" % (number, what, "" if number == 1 else "s")


class Said:
    """whether standard error has taken all that it was given"""
    whole = True


def given_up(stream):
    """what a stream has not taken is not tried again when the tool ends, which would have an exit status of its own"""
    if stream is not None:
        os.dup2(os.open(os.devnull, os.O_WRONLY), stream.fileno())


def tell(text):
    """in one line of standard error"""
    try:
        if sys.stderr is None:
            raise OSError
        print("%s: %s" % (TOOL, shown(text)), file=sys.stderr, flush=True)
    except OSError:
        Said.whole = False
        given_up(sys.stderr)


def all_said():
    """refuses where a stream has not taken what it was given"""
    with about("standard output"):
        sys.stdout.flush()
    if not Said.whole:
        raise Refused("standard error has not taken all")


# ---- numbers and GUIDs that are typed

# the largest number of 32 bits
ALL = 0xFFFFFFFF
MOST_DIGITS = len(str(ALL))
# first, second and third field of a GUID in text are numbers, little-endian in memory
GUID = re.compile(r"([0-9A-Fa-f]{8})-([0-9A-Fa-f]{4})-([0-9A-Fa-f]{4})-([0-9A-Fa-f]{4})-([0-9A-Fa-f]{12})")


def vendor_of(text):
    parts = GUID.fullmatch(text)
    if parts:
        first, second, third, *rest = parts.groups()
        return struct.pack("<IHH", int(first, 16), int(second, 16), int(third, 16)) + bytes.fromhex("".join(rest))
    if re.fullmatch("[0-9A-Fa-f]{32}", text):
        return bytes.fromhex(text)
    raise Refused("%s is no GUID: 8-4-4-4-12 hexadecimal digits, or 32" % text)


def vendor_text(vendor):
    first, second, third = struct.unpack("<IHH", vendor[:8])
    return "%08X-%04X-%04X-%s-%s" % (first, second, third, vendor[8:10].hex().upper(), vendor[10:].hex().upper())


def number_of(text, what):
    if not re.fullmatch("[0-9]+|0[xX][0-9A-Fa-f]+", text):
        raise Refused("%s: %s is no number" % (what, text or "nothing"))
    base, digits = (16, text[2:]) if text[:2] in ("0x", "0X") else (10, text)
    digits = digits.lstrip("0") or "0"
    # Python makes no number of thousands of digits
    if len(digits) > MOST_DIGITS or int(digits, base) > ALL:
        raise Refused("%s: %s is more than 32 bits hold" % (what, text if len(digits) <= 2 * MOST_DIGITS else "a number of %d digits" % len(digits)))
    return int(digits, base)


# ---- arguments and files


def parser_of(text):
    """of a tool whose text has its usage; main answers --help"""
    return argparse.ArgumentParser(prog=TOOL, usage=text.split("usage: ")[1].split("\n\n")[0], add_help=False)


@contextlib.contextmanager
def about(path):
    """what is refused in it names the file"""
    try:
        yield
    except Refused as why:
        raise Refused("%s: %s" % (path, why)) from None
    except OSError as why:
        raise Refused("%s: %s" % (path, why.strerror)) from None


def front(path, most):
    """the first bytes of a file or a pipe"""
    with about(path), open(path, "rb") as file:
        return file.read(most)


def read(path, most=MOST_BYTES):
    """all of it; of a longer one no more is read than shows that it is"""
    held = front(path, most + 1)
    if len(held) > most:
        raise Refused("%s: it has more than %d bytes" % (path, most))
    return held


def spare_inputs(out, inputs):
    """refuses, before anything is read, an output that is an input, by whatever name"""
    if os.path.exists(out) and any(os.path.exists(path) and os.path.samefile(out, path) for path in inputs):
        raise Refused("%s would be overwritten" % out)


def absent(path):
    """refuses a file that is there"""
    if os.path.lexists(path):
        raise Refused("%s is there already, and is not overwritten" % path)


def put(files, say, over=False, folder=None):
    """bytes by path: all of the files, each whole, or none, and they have their names only after all that `say` prints is out. One that is there is refused, or with
    `over` replaced, with the permissions that it has; the folder is made where it is not there."""
    made, folders = [], []
    try:
        for one in missing(folder) if folder is not None else []:
            with about(folder):
                os.mkdir(one)
                folders.append(one)
        for path, held in files:
            with about(path):
                replaces = over and os.path.exists(path)
                if replaces and not os.path.isfile(path):
                    raise Refused("it is no file that could be replaced")
                if replaces and not os.access(path, os.W_OK):
                    raise Refused("it is read-only")
                with open(beside(path), "xb") as file:
                    made.append(file.name)
                    if replaces:
                        shutil.copymode(path, file.name)
                    file.write(held)
        say()
        all_said()
        for path, _ in files:
            with about(path):
                if not over:
                    # by now it may be there
                    open(path, "xb").close()
                    made.append(path)
                os.replace(beside(path), os.path.realpath(path))
    except BaseException:
        for path in made:
            with contextlib.suppress(FileNotFoundError):
                os.unlink(path)
        for one in reversed(folders):
            # what another tool has put there stays
            with contextlib.suppress(OSError):
                os.rmdir(one)
        raise


def missing(folder):
    """the folders that have to be made for it, the outermost first"""
    path = os.path.abspath(folder)
    return [] if os.path.isdir(path) else missing(os.path.dirname(path)) + [path]


def beside(path):
    """where a file is written before it has its name"""
    return "%s.%d.part" % (os.path.realpath(path), os.getpid())


# ---- the end

# 128, and the number of the signal
INTERRUPTED = 130


def main(work, text, status=1):
    """of a tool with this text, whose exit status its work returns: what is refused is reported in one line, with an exit status; a fault of the tool's own has 3, so
    that it passes for no finding; one that is interrupted has 130, as in a shell, and says nothing"""
    try:
        # Python prints to a closed stream without a word, and the next file that is opened would take its place
        if sys.stdout is None:
            raise Refused("standard output is closed")
        # as standard error does, it takes what its encoding has not
        sys.stdout.reconfigure(errors="backslashreplace")
        if {"-h", "--help"} & set(sys.argv[1:]):
            found = print(text.strip())
        else:
            found = work()
        all_said()
        sys.exit(found)
    except (Refused, OSError) as why:
        # an error without a file is that of a print
        tell(str(why) if isinstance(why, Refused) else "%s: %s" % (why.filename or "standard output", why.strerror))
        given_up(sys.stdout)
        sys.exit(status)
    except KeyboardInterrupt:
        given_up(sys.stdout)
        sys.exit(INTERRUPTED)
    except Exception:
        if sys.stderr is not None:
            traceback.print_exc()
        sys.exit(3)
