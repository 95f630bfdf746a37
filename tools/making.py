"""For the tests of the tools for the desk, and for tools/make-images: volumes, stores and images made byte by byte, with nothing from the tools' own code; a tool run
on them."""
import os
import struct
import subprocess
import sys
import tempfile

BLOCK = 4096
AUTHENTICATED = bytes.fromhex("782CF3AA7B949A43A1802E144EC37792")
PLAIN = bytes.fromhex("1636CFDD7532644198B6FE85707FFE7D")
NV_DATA = bytes.fromhex("8D2BF1FF96768B4CA9852747075B4F50")
CODE_FILES = bytes.fromhex("78E58C8C3D8A1C4F9935896185C32DD3")
VENDOR = bytes(range(1, 17))
SIZE = 0xDFB8   # of OVMF's store

# ---- volumes and images


def entry(name="RATE", data=b"\x64\0\0\0", state=0x3F, attributes=7, name_bytes=None, vendor=VENDOR, stamp=bytes(16), name_size=None, data_size=None, zero=0, count=0, key=0,
          pad=0xFF):
    """in the authenticated form, with its padding; its size fields may say something else than its bytes"""
    name_bytes = name.encode("utf-16-le") + b"\0\0" if name_bytes is None else name_bytes
    name_size, data_size = (len(held) if told is None else told for held, told in ((name_bytes, name_size), (data, data_size)))
    body = struct.pack("<HBBIQ16sIII16s", 0x55AA, state, zero, attributes, count, stamp, key, name_size, data_size, vendor) + name_bytes + data
    return body + bytes([pad]) * (-len(body) % 4)


def plain_entry(*told, **more):
    """in the plain form: without the 28 bytes of count, stamp and key index"""
    whole = entry(*told, **more)
    return whole[:8] + whole[36:]


def store(*entries, size=SIZE, signature=AUTHENTICATED, end=b"\x5A\xFE" + bytes(6), told=None):
    return (signature + struct.pack("<I", size if told is None else told) + end + b"".join(entries)).ljust(size, b"\xFF")


def plain_store(*entries, **told):
    return store(*entries, signature=PLAIN, **told)


def volume(held, length=0x20000, system=NV_DATA, told=None, wrong=0):
    """EFI_FIRMWARE_VOLUME_HEADER with one run of blocks, its 16-bit words adding up to 0 (or to `wrong`), and a store behind it"""
    header = struct.pack("<16s16sQ4sIHHHBBIIII", bytes(16), system, length if told is None else told, b"_FVH", 0x0004FEFF, 72, 0, 0, 0, 2,
                         length // BLOCK, BLOCK, 0, 0)
    checksum = (wrong - sum(struct.unpack("<36H", header))) % 65536
    header = header[:50] + struct.pack("<H", checksum) + header[52:]
    return (header + held).ljust(length, b"\xFF")


def image(*entries, b=1, work=b"", spare=b"", size=None, signature=AUTHENTICATED):
    return store(*entries, size=BLOCK * b, told=size, signature=signature) + work.ljust(BLOCK, b"\xFF") + spare.ljust(BLOCK * b, b"\xFF")


def plain_image(*entries, **told):
    return image(*entries, signature=PLAIN, **told)


def work_block(*writes):
    """EDK II's, with a queue of writes (state of the header, state of its one record), in the form that OVMF leaves after a reclaim"""
    block = bytes.fromhex("2B29589E687C7D49A0CE6500FD9F1B95 2CAF2C64 FEFFFFFF E00F000000000000")
    for header, record in writes:
        block += bytes([header]) + b"\xFF" * 3 + VENDOR + b"\xFF" * 4 + struct.pack("<QQ", 1, 0)
        block += bytes([record]) + b"\xFF" * 7 + struct.pack("<QQQQ", 0, 72, SIZE, 0)
    return block


# ---- running the tool


class Tool:
    """one of this folder's; what it told is counted"""

    def __init__(self, name):
        self.name, self.path = name, os.path.join(os.path.dirname(os.path.abspath(__file__)), name)
        self.passed = self.failed = 0

    def told(self, what, right):
        self.passed, self.failed = self.passed + bool(right), self.failed + (not right)
        if not right:
            print("%s-test: %s: FAILED" % (self.name, what))

    def call(self, arguments, **surroundings):
        """with other variables of the environment, if any are given"""
        return subprocess.run([sys.executable, self.path, *arguments], stdout=subprocess.PIPE, stderr=subprocess.PIPE, text=True, env={**os.environ, **surroundings})

    def run(self, way, files, *options):
        """exit status, what it wrote to OUT or None, output, errors; and whether it left its inputs alone"""
        with tempfile.TemporaryDirectory() as folder:
            paths = [os.path.join(folder, "in%d" % i) for i in range(len(files))]
            for path, held in zip(paths, files):
                with open(path, "wb") as file:
                    file.write(held)
            out = os.path.join(folder, "out")
            ended = self.call([way, *paths, out, *options])
            self.told("%s: its inputs are as before" % way, [open(path, "rb").read() for path in paths] == files)
            told_of = ended.stderr.replace(folder, "FOLDER")
            return ended.returncode, open(out, "rb").read() if os.path.exists(out) else None, ended.stdout, told_of

    def gives(self, what, expected, way, files, *options):
        status, out, said, errors = self.run(way, files, *options)
        self.told(what, status == 0 and out == expected and errors == "" and said.count("\n") == 1)
        return said

    def refuses(self, what, words, way, files, *options):
        """in one line that has these words, and names a file if it is not the offset that is refused"""
        status, out, said, errors = self.run(way, files, *options)
        names = errors.startswith(("%s: FOLDER/" % self.name, "%s: --at: " % self.name))
        self.told("%s (%s)" % (what, errors.strip()), status == 1 and out is None and said == "" and errors.count("\n") == 1 and words in errors and names)

    def end(self):
        print("%s-test: %d checks passed, %d failed" % (self.name, self.passed, self.failed))
        sys.exit(1 if self.failed else 0)
