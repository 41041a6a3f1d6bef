"""Messages of an event stream (the encoding application/vnd.amazon.eventstream of AWS's SDKs): lengths, headers, a
payload, and checksums of both."""
import json
import struct
import zlib
from typing import Dict, Optional

CONTENT_TYPE = "application/vnd.amazon.eventstream"
OF_STRING = 7  # the type of a header's value
AROUND = 16  # bytes: two lengths and two checksums


def header(name: str, value: str) -> bytes:
    key, text = name.encode(), value.encode()
    return struct.pack("!B", len(key)) + key + struct.pack("!BH", OF_STRING, len(text)) + text


def message(kind: str, content_type: str, payload: bytes) -> bytes:
    headers = (header(":message-type", "event") + header(":event-type", kind) + header(":content-type", content_type))
    lengths = struct.pack("!II", len(headers) + len(payload) + AROUND, len(headers))
    whole = lengths + struct.pack("!I", zlib.crc32(lengths)) + headers + payload
    return whole + struct.pack("!I", zlib.crc32(whole))


def payload_chunk(data: bytes) -> bytes:
    return message("PayloadChunk", "application/octet-stream", data)


def invoke_complete(kind: Optional[str] = None, details: Optional[str] = None, log: Optional[str] = None) -> bytes:
    members: Dict[str, Optional[str]] = {"ErrorCode": kind, "ErrorDetails": details, "LogResult": log}
    told = {name: value for name, value in members.items() if value is not None}
    return message("InvokeComplete", "application/json", json.dumps(told).encode())
