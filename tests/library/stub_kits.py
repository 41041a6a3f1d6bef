"""Kits in place of Rattle's, for checks of the launcher: a folder with bin/rt and KIT-ID, as a kit has them. Its rt
says the kit's name, notes what else it is asked for, and then fails: what proves or builds unasked is found by that."""
import os

from tests.library.trees import text_of, write

RT = """#!/bin/sh
[ "$1" != version ] || {{ {version}; exit; }}
echo "$*" >>{asked}
exit 1
"""
# By what they are to a release that `rattle-kit-0 logic 0` proved. (Some systems have another program called rt.)
KITS = {
    "the kit that proved it": "rattle-kit-0 logic 0",
    "a kit of another letter": "rattle-kit-0b logic 0",
    "a kit of another logic": "rattle-kit-1 logic 1",
    "another logic, told by rt alone": "rattle-kit-1 logic 1",
    "an rt that is none": None,
}


class StubKit:
    """One of them, in its folder."""

    def __init__(self, folder, name):
        self.asked_file = os.path.join(folder, "asked")
        identity = KITS[name]
        version = f"echo {identity}" if identity else "echo usage >&2; exit 2"
        write(os.path.join(folder, "bin", "rt"), RT.format(version=version, asked=self.asked_file).encode(), 0o755)
        if identity and "rt alone" not in name:
            write(os.path.join(folder, "KIT-ID"), f"{identity}\n".encode())
        self.path = f"{folder}/bin:/usr/bin:/bin"
        self.is_of_another_logic = bool(identity and not identity.endswith(" logic 0"))

    def asked(self):
        """What it was asked for, besides its version."""
        return text_of(self.asked_file).splitlines() if os.path.exists(self.asked_file) else []


class NoKit:
    path, is_of_another_logic = "/usr/bin:/bin", False

    @staticmethod
    def asked():
        return []
