"""Reads crates.txt: a line for each crate of this repository, with the crates that it uses."""
import os
from typing import Dict, List


def uses(root: str) -> Dict[str, List[str]]:
    """Each crate with what it uses, of this repository and of the kit, in the order of the file."""
    with open(os.path.join(root, "crates.txt"), encoding="utf-8") as file:
        lines = [line.split("#")[0].split(":") for line in file]
    return {words[0].strip(): words[1].split() for words in lines if len(words) > 1}


def below(crate: str, known: Dict[str, List[str]]) -> List[str]:
    """The crates of this repository that a crate uses, and those that these use: each after all that it uses."""
    found = {}
    for need in known[crate]:
        if need in known:
            found.update(dict.fromkeys([*below(need, known), need]))
    return list(found)
