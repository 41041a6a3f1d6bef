"""Why a file cannot be started as a program, and what to do: for a command that a user wrote."""
import errno
import os
import shutil
import struct
from typing import Optional

READ = 4096  # bytes of a file that are looked at
LONGEST = 200  # letters of a first line
ELF, WORDS_64, LITTLE = b"\x7fELF", 2, 1
INTERPRETER = 3  # the type of the program header that names the loader
# Of machines that Linux runs on (System V ABI, "Machine"; the names are those of `uname -m`).
MACHINES = {3: "i386", 8: "mips", 20: "ppc", 21: "ppc64", 22: "s390x", 40: "arm", 62: "x86_64", 183: "aarch64",
            243: "riscv64", 258: "loongarch64"}


def why_not_found(path: str) -> Optional[str]:
    """Why a file that a command names by its path is no program; None if there is none, or nothing speaks against
    it."""
    if os.path.isdir(path):
        return "is a folder"
    if os.path.isfile(path) and not os.access(path, os.X_OK):
        return f"is not executable: chmod +x {path}"
    return None


def why_not_started(path: str, fault: OSError) -> str:
    """Why a program could not be started, by the fault with which that ended."""
    return what_is_wrong(path, fault.errno == errno.ENOEXEC) or why_not_found(path) or f"{fault.strerror or fault}"


def what_is_wrong(path: str, is_refused: bool = True) -> Optional[str]:
    """What is wrong with a file that did not start, as far as it shows; `is_refused` says that the system did not know
    what it is."""
    try:
        with open(path, "rb") as file:
            return _why(file.read(READ), is_refused)
    except OSError:
        return None


def _why(begun: bytes, is_refused: bool) -> Optional[str]:
    if begun.startswith(b"#!"):
        return _of_script(begun[2:].split(b"\n")[0])
    if begun.startswith(ELF):
        return _of_elf(begun)
    if not begun:
        return "is empty"
    return ("has no #! line, such as #!/bin/sh, and is not a program for this machine"
            if is_refused else None)


def _of_script(line: bytes) -> Optional[str]:
    words = line.decode(errors="replace").strip(" \t").split(None, 1)
    interpreter = words[0] if words and not line.startswith(b"\r") else ""
    if line.endswith(b"\r"):
        return ("has the line ends of Windows: its first line ends with a carriage return, which is read as part of "
                "the interpreter's name (sed -i 's/\\r$//' mends it)")
    if not interpreter:
        return "names no interpreter in its first line"
    if not shutil.which(interpreter):
        return f"needs the interpreter {interpreter[:LONGEST]}, which its first line names and which is not here"
    return None


def _of_elf(begun: bytes) -> Optional[str]:
    """Of a file in the Executable and Linking Format: its machine, and its loader."""
    if len(begun) < 20:
        return "is cut short"
    order = "<" if begun[5] == LITTLE else ">"
    machine, here = MACHINES.get(struct.unpack_from(f"{order}H", begun, 18)[0], "another machine"), os.uname().machine
    if machine != here:
        return f"is built for {machine}, and this machine is {here}: build it for {here}"
    loader = _loader(begun, order) if begun[4] == WORDS_64 else None
    if loader and not os.path.exists(loader):
        return (f"needs the loader {loader[:LONGEST]}, which is not here: it was built for another C library (link it "
                "statically, or build it here)")
    return None


def _loader(begun: bytes, order: str) -> Optional[str]:
    try:
        table, = struct.unpack_from(f"{order}Q", begun, 32)
        size, count = struct.unpack_from(f"{order}HH", begun, 54)
        for place in range(min(count, READ)):
            kind, _, offset, _, _, length = struct.unpack_from(f"{order}IIQQQQ", begun, table + place * size)
            if kind == INTERPRETER:
                return begun[offset:offset + length].split(b"\0")[0].decode(errors="replace") or None
    except struct.error:
        pass
    return None
