"""The beginning of a response to a Function URL whose content type says that it has one: an object in JSON with status,
headers and cookies, and eight zero bytes after it (Lambda Developer Guide, "Writing response streaming-enabled Lambda
functions": awslambda.HttpResponseStream)."""
from typing import AsyncIterator, Dict, Optional, Tuple

from ..json_reader import NotJson, read_json

CONTENT_TYPE = "application/vnd.awslambda.http-integration-response"
END = bytes(8)
LONGEST = 64 << 10  # bytes


class NoPrelude(Exception):
    """What comes has no such beginning."""


async def prelude_of(pieces: AsyncIterator[bytes]) -> Tuple[Dict[str, object], bytes]:
    """What it says, and what has come after it."""
    begun = bytearray()
    async for piece in pieces:
        looked_at = max(0, len(begun) - len(END))
        begun += piece
        at = begun.find(END, looked_at)
        if at >= 0:
            return read(bytes(begun[:at])), bytes(begun[at + len(END):])
        if len(begun) > LONGEST:
            break
    raise NoPrelude("its response has no prelude")


def read(text: bytes) -> Dict[str, object]:
    try:
        prelude: Optional[object] = read_json(text)
    except NotJson as fault:
        raise NoPrelude(f"its prelude is not JSON: {fault}") from None
    if not isinstance(prelude, dict):
        raise NoPrelude("its prelude is not a JSON object")
    return prelude
