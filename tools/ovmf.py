"""EDK II's firmware for a virtual machine: what tools/efi and tools/interop run on.

A machine is started with a disk of files and a volume of variables, without display or network, and is to turn itself off. What it writes to its serial port is
read while it runs, without the terminal's control sequences.
"""
import os
import re
import shutil
import subprocess
import time

from desk import Refused, tell

ROOT = os.path.dirname(os.path.dirname(os.path.abspath(__file__)))
TARGET = os.path.join(ROOT, "target")
LIBRARY = os.path.join(TARGET, "staticlib", "libcapi.a")


class Machine:
    """qemu's words for it; its firmware's builds, of which each is code and blank variables; the programs that are looked for, by the Debian package that has them"""

    def __init__(self, words, builds, package, programs):
        self.words, self.builds, self.package = words, builds, package
        self.programs = {"mformat": "mtools", "mcopy": "mtools", **programs}

    def firmware(self):
        """code and blank variables, or None"""
        return next((build for build in self.builds if all(os.path.exists(path) for path in build)), None)


X86_64 = Machine(["qemu-system-x86_64", "-machine", "q35"],
                 [(folder + code, folder + variables) for folder in ("/usr/share/OVMF/", "/usr/share/edk2/ovmf/", "/usr/share/edk2/x64/")
                  for code, variables in (("OVMF_CODE_4M.fd", "OVMF_VARS_4M.fd"), ("OVMF_CODE.fd", "OVMF_VARS.fd"))],
                 "ovmf", {"qemu-system-x86_64": "qemu-system-x86", "cc": "gcc", "objcopy": "binutils"})
AARCH64 = Machine(["qemu-system-aarch64", "-machine", "virt", "-cpu", "cortex-a57"], [("/usr/share/AAVMF/AAVMF_CODE.fd", "/usr/share/AAVMF/AAVMF_VARS.fd")],
                  "qemu-efi-aarch64", {"qemu-system-aarch64": "qemu-system-arm", "aarch64-linux-gnu-gcc": "gcc-aarch64-linux-gnu"})


def firmware():
    return X86_64.firmware()


def look(more=(), machine=X86_64):
    """refuses with the names of all packages that are missing; `more` has further (file, package)"""
    missing = {package for program, package in machine.programs.items() if shutil.which(program) is None}
    missing |= {package for path, package in more if not os.path.exists(path)}
    if machine.firmware() is None:
        missing.add(machine.package)
    if missing:
        raise Refused("install first: %s (the names are Debian's)" % ", ".join(sorted(missing)))


def failed(what, status, printed):
    """refuses the run, after all that a program has printed"""
    for line in printed.decode(errors="replace").splitlines():
        tell(line)
    raise Refused("%s: status %d" % (what, status))


def do(*command):
    """a program that must succeed; its output"""
    ended = subprocess.run(command, stdout=subprocess.PIPE, stderr=subprocess.PIPE)
    if ended.returncode:
        failed(" ".join(command), ended.returncode, ended.stdout + ended.stderr)
    return ended.stdout


def disk(path, files):
    """a FAT disk of 32 MiB with files by name, an application to be started (EFI/BOOT/..) among them or not"""
    if os.path.exists(path):
        os.remove(path)
    do("mformat", "-C", "-i", path, "-T", "65536", "-h", "16", "-s", "63", "::")
    made = set()
    for name, source in files.items():
        folders = name.split("/")[:-1]
        for i in range(len(folders)):
            folder = "/".join(folders[:i + 1])
            if folder not in made:
                made.add(folder)
                do("mmd", "-i", path, "::/" + folder)
        do("mcopy", "-i", path, source, "::/" + name)


def from_disk(path, name):
    return do("mcopy", "-n", "-i", path, "::/" + name, "-")


def plain(serial):
    """the text of what a terminal was sent"""
    text = re.sub(rb"\x1b\[[0-9;?=]*[A-Za-z]", b"", serial).decode("ascii", errors="replace")
    return re.sub(r"[ \t]+\n", "\n", text.replace("\r", "\n"))


def run(folder, the_disk, variables, seconds, code=None, machine=X86_64):
    """starts the machine and waits until it is off; returns the text of its serial port, whether it turned itself off, and the seconds that it took"""
    serial = os.path.join(folder, "serial")
    open(serial, "wb").close()
    command = [*machine.words, "-accel", "tcg", "-m", "256", "-display", "none", "-monitor", "none", "-nodefaults",
               "-net", "none", "-no-reboot", "-serial", "file:" + serial,
               "-drive", "if=pflash,format=raw,unit=0,readonly=on,file=" + (code or machine.firmware()[0]), "-drive", "if=pflash,format=raw,unit=1,file=" + variables,
               "-drive", "format=raw,file=" + the_disk]
    began = time.monotonic()
    with open(os.path.join(folder, "qemu"), "wb") as log:
        started = subprocess.Popen(command, stdin=subprocess.DEVNULL, stdout=log, stderr=log)
        try:
            off = False
            while not off and time.monotonic() - began < seconds:
                try:
                    started.wait(timeout=1)
                    off = True
                except subprocess.TimeoutExpired:
                    # the firmware reports an exception and stands still
                    if b"Exception Type" in open(serial, "rb").read():
                        break
        finally:
            if started.poll() is None:
                started.kill()
                started.wait()
    if off and started.returncode:
        failed("qemu", started.returncode, open(os.path.join(folder, "qemu"), "rb").read())
    return plain(open(serial, "rb").read()), off, time.monotonic() - began
