"""What a function's report of a failure says: its type and message, where in the code, and the trace."""
import json
import os
import re
from typing import Dict, Iterator, List, Optional, Tuple, Union

from .json_reader import members_of
from .outgoing import header_value, is_for_the_system
from .paths import bundled

MOST_LINES = 8
# A report has up to 6 MiB, of anything: so much of it is looked at.
MOST_FRAMES, LONGEST_FRAME, LONGEST_PATH, LONGEST_MEMBER = 200, 10_000, 4096, 100_000  # the last three in characters
LONGEST_SHOWN = 300
BUNDLED = ("runtime.py", "runtime.mjs")
PYTHON = re.compile(r'File "([^"]+)",? [Ll]ine (\d{1,9})')
# Node "at run (file:///x/app.mjs:3:9)", Java "a.B.c(B.java:3)", Ruby "/x/app.rb:3:in `run'"
OTHERS = re.compile(r"(?:\(|\bat |^)(?:file://)?([^()\s:]+\.\w+):(\d{1,9})")
Frame = Union[str, Dict[str, object]]  # (Go has objects)


def text_of(value: object) -> str:
    """A member as a text, also if it is none."""
    if isinstance(value, str):
        return value
    return json.dumps(value) if value not in (None, "", 0, False, [], {}) else ""


def kind_in(body: bytes, otherwise: str) -> str:
    """The type of the error in a report, as the value of a header."""
    return header_value(text_of((members_of(body) or {}).get("errorType")), otherwise)


def is_path(text: str) -> bool:
    return len(text) <= LONGEST_PATH and is_for_the_system(text)


def frames_of(members: Dict[str, object]) -> List[Frame]:
    """The frames of a trace, without the middle of a long one."""
    for trace in (members.get("stackTrace"), members.get("trace")):
        if isinstance(trace, list):
            frames: List[Frame] = [frame[:LONGEST_FRAME] if isinstance(frame, str) else frame for frame in trace
                                   if isinstance(frame, (str, dict))]
            return frames if len(frames) <= MOST_FRAMES else frames[:MOST_FRAMES // 2] + frames[-MOST_FRAMES // 2:]
    return []


def shorten(text: str) -> str:
    return text if len(text) <= LONGEST_SHOWN else text[:LONGEST_SHOWN] + ".."


class Report:
    def __init__(self, body: Optional[bytes], directory: str):
        self.directory = os.path.realpath(directory)
        body = body or b""
        found = members_of(body)
        self.is_read = found is not None
        members: Dict[str, object] = {"errorMessage": body.decode(errors="replace")} if found is None else found
        self.kind = shorten(text_of(members.get("errorType")))
        self.message = text_of(members.get("errorMessage"))[:LONGEST_MEMBER]
        self.frames = frames_of(members)

    @property
    def lines(self) -> List[str]:
        """The lines of the trace, cut short: in Python the last ones are of the code that failed, else the first."""
        texts = [frame if isinstance(frame, str) else json.dumps(frame)[:LONGEST_FRAME] for frame in self.frames]
        found = [line for text in texts for line in text.rstrip().split("\n")]
        if len(found) <= MOST_LINES:
            return found
        return [".."] + found[-MOST_LINES:] if self._is_of_python() else found[:MOST_LINES] + [".."]

    def _is_of_python(self) -> bool:
        return any(isinstance(frame, str) and PYTHON.search(frame) for frame in self.frames)

    def _places(self) -> Iterator[Tuple[str, str]]:
        """(file, line) of each frame, the innermost first."""
        for frame in reversed(self.frames) if self._is_of_python() else self.frames:
            if isinstance(frame, dict):  # (Go)
                path, line = frame.get("path"), frame.get("line")
                if isinstance(path, str) and isinstance(line, (int, str)) and path and line:
                    yield path, str(line)
            elif found := PYTHON.search(frame) or OTHERS.search(frame):
                yield found[1], found[2]

    def _is_own(self, path: str) -> bool:
        path = os.path.realpath(os.path.join(self.directory, path))
        return path.startswith(self.directory + os.sep) and os.sep + "node_modules" + os.sep not in path

    @staticmethod
    def _is_of_a_runtime(path: str) -> bool:
        # (a module that is compiled into Python has a name such as <frozen os>)
        return path.startswith(("node:", "<")) or os.path.realpath(path) in map(bundled, BUNDLED)

    @property
    def place(self) -> str:
        """The innermost line of the function's own code, as "app.py:12"; empty if there is none."""
        places = [place for place in self._places()
                  if is_path(place[0]) and not self._is_of_a_runtime(place[0])]
        found = next((place for place in places if self._is_own(place[0])), places[0] if places else None)
        if found is None:
            return ""
        path = os.path.realpath(os.path.join(self.directory, found[0]))
        return f"{os.path.relpath(path, self.directory) if self._is_own(path) else os.path.basename(path)}:{found[1]}"

    @property
    def members(self) -> Dict[str, object]:
        """For a line in JSON."""
        return {"errorType": self.kind, "errorMessage": self.message, "place": self.place}

    def __str__(self) -> str:
        """For example: KeyError: 'missing' (app.py:12)"""
        message = shorten(" ".join(self.message.split()))
        said = ": ".join(filter(None, (self.kind, message))) or "no reason was reported"
        return said + (f" ({self.place})" if self.place else "")
