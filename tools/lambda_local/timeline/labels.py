"""Names of functions in little room: what tells them apart is kept."""
import os
from typing import Dict, Sequence

GAP = "\u2026"


def short_names(names: Sequence[str], room: int) -> Dict[str, str]:
    """Each name in so many letters. Of those that are longer, what all names begin with is left out, up to a - or _,
    and then the middle."""
    return {name: name if len(name) <= room else without_middle(GAP + name[begin:] if begin > 1 else name, room)
            for begin in [common_length(names)] for name in names}


def common_length(names: Sequence[str]) -> int:
    """How many letters all names begin with, of which the last one is a - or _."""
    common = os.path.commonprefix(list(names)) if len(names) > 1 else ""
    return max(common.rfind("-"), common.rfind("_")) + 1


def without_middle(text: str, room: int) -> str:
    """A text in so many letters: its beginning and, twice as long, its end."""
    if len(text) <= room:
        return text
    end = max(1, 2 * (room - 1) // 3)
    return text[:max(0, room - 1 - end)] + GAP + text[-end:]
