"""How many crates to prove at once, as the command beside this file says."""
import os
import subprocess


def jobs_here() -> int:
    return int(subprocess.check_output([os.path.splitext(os.path.realpath(__file__))[0]]))
