"""Makes packages of the checkout's last commit and the proved program of its sources: each needs no kit.

  tools/package [--archive] [--wheel] [--deb] [FOLDER]

  --archive  lambda_local-VERSION-x86_64-linux.tar.gz, which is unpacked anywhere (if no other is asked for)
  --wheel    for `pip install`: the command lambda_local, and the pytest plugin
  --deb      for `apt install`
  FOLDER     where they go (default: the current folder)

The program is the one that ./lambda_local starts: built here, or unpacked from release/; none is proved or built for a
package. What proved it is said on standard error and stands in each package. LAMBDA_LOCAL_PROGRAM names another: then
its sha256 stands there, and that it was given, not proved here. The paths of the packages are written on standard
output. The version is that of the file VERSION, with the commit. The same commit and program give the same bytes. Files
that the checkout has beside the commit do not matter, unless they lie where packaged files or sources do.

Exit statuses: 2 for a fault in the arguments or in the checkout; 4 if there is no program, the checkout is another
user's, or a file cannot be written."""
import argparse
import os
import sys

from . import archive, deb, wheel
from .source import Commit, Fault

KINDS = {"archive": archive, "wheel": wheel, "deb": deb}


def say(line: object) -> None:
    print(f"package: {line}", file=sys.stderr)


def main() -> int:
    """Makes the packages that the command line asks for."""
    parser = argparse.ArgumentParser(prog="tools/package",
                                     usage="tools/package [--archive] [--wheel] [--deb] [FOLDER]", add_help=False,
                                     description=__doc__, formatter_class=argparse.RawDescriptionHelpFormatter)
    for kind in KINDS:
        parser.add_argument(f"--{kind}", action="store_true", help=argparse.SUPPRESS)
    parser.add_argument("-h", "--help", action="help", help=argparse.SUPPRESS)
    parser.add_argument("folder", nargs="?", default=".", help=argparse.SUPPRESS)
    chosen = parser.parse_args()
    try:
        if not os.path.isdir(chosen.folder):
            raise Fault(2, f"{chosen.folder} is not a folder: name one that is there")
        source = Commit(say)
        for kind in [kind for kind in KINDS if getattr(chosen, kind)] or ["archive"]:
            print(KINDS[kind].make(source, os.path.abspath(chosen.folder)), flush=True)
    except Fault as fault:
        say(fault)
        return fault.status
    return 0
