"""How far the shards of a stream are handled, in a file, so that the next run goes on there."""
import json
import os
import time
from typing import Dict, NamedTuple, Optional

from ..json_reader import NotJson, read_json
from ..outgoing import written
from ..program import Fault
from .servers import SEQUENCE

LONGEST = 4 << 20  # bytes of the file
BETWEEN_WRITES = 0.25  # seconds; what is handled meanwhile is handled again if all ends at once


class Position(NamedTuple):
    after: Optional[str]  # the sequence number of the last record that is done
    is_over: bool = False  # a closed shard, of which all is done


def _members(position: Position) -> Dict[str, object]:
    over: Dict[str, object] = {"over": True} if position.is_over else {}
    return {"after": position.after, **over}


class Checkpoints:
    """Those of one stream. `positions` are of the stream with the identity; a fault of the file is a Fault."""

    def __init__(self, path: str, where: str) -> None:
        self.path, self.where = path, where
        self.identity = ""
        self.positions: Dict[str, Position] = {}
        self.is_changed, self.written_at = False, 0.0
        self._load()

    def _load(self) -> None:
        try:
            with open(self.path, "rb") as file:
                whole = read_json(file.read(LONGEST + 1), longest=LONGEST)
        except FileNotFoundError:
            return
        except OSError as fault:
            raise Fault(2, f"{self.where}: {self.path}: {fault.strerror}") from None
        except NotJson as fault:
            raise self._wrong(f"this is not JSON: {fault}") from None
        if not isinstance(whole, dict) or not isinstance(whole.get("stream"), str) or not isinstance(
                whole.get("shards"), dict):
            raise self._wrong("it must be an object with \"stream\" and \"shards\"")
        for shard, given in whole["shards"].items():
            after = given.get("after") if isinstance(given, dict) else 0
            if not (after is None or isinstance(after, str) and SEQUENCE.fullmatch(after)):
                raise self._wrong(f"the shard {shard[:60]} must have the sequence number of a record as \"after\"")
            self.positions[shard] = Position(after, given.get("over") is True)
        self.identity = whole["stream"]

    def _wrong(self, why: str) -> Fault:
        return Fault(2, f"{self.where}: {self.path} has no positions: {why}: remove it to begin anew")

    def begin(self, identity: str) -> bool:
        """From now on it is about the stream with this identity; whether it was about another one."""
        was_other = self.identity not in ("", identity)
        if self.identity != identity:
            self.positions, self.is_changed = {}, True
        self.identity = identity
        return was_other

    def note(self, shard: str, position: Position) -> None:
        if self.positions.get(shard) != position:
            self.positions[shard], self.is_changed = position, True

    def keep(self, shards: "set[str]") -> None:
        """Leaves out the shards that are none of these any more."""
        for shard in set(self.positions) - shards:
            del self.positions[shard]
            self.is_changed = True

    def write(self, now: bool = False) -> None:
        """Writes it if it has changed, and not too often. OSError says why it cannot."""
        if not self.is_changed or not now and time.monotonic() - self.written_at < BETWEEN_WRITES:
            return
        whole = {"stream": self.identity, "shards": {
            shard: _members(position) for shard, position in sorted(self.positions.items())}}
        self.written_at = time.monotonic()
        with written(os.path.abspath(self.path), has_payloads=False) as file:
            json.dump(whole, file, indent=1)
            file.write("\n")
        self.is_changed = False
