"""HTTP/1.1 without sockets (RFC 9112): bytes go in, events come out, and heads are written by one function.

    reader = RequestReader()
    reader.receive(b"GET / HTTP/1.1\\r\\nHost: a\\r\\n\\r\\n")   # b"" says that the peer has ended its side
    reader.next_event()                                     # Request(..)
    reader.next_event()                                     # EndOfMessage()
    reader.next_event()                                     # PAUSED, until next_message() is called

It takes what `hyper` takes, which the service reads by, and refuses what `hyper` refuses, with the same status, and
besides more than 16 KiB of leading zeros and blanks around the sizes of a body's chunks. It raises `Malformed` and
nothing else, whatever comes. All of it is linear in the bytes that come, in whichever pieces."""
from .events import CLOSED, NEED_DATA, PAUSED, Data, EndOfMessage, Event, Malformed, Request, Response, Unwritable
from .reader import CutShort, Reader, RequestReader, ResponseReader
from .syntax import TOKEN, Headers, Target, every, first, is_field_value, is_token, target_of
from .writer import chunk, last_chunk, request_head, response_head

__all__ = ["CLOSED", "NEED_DATA", "PAUSED", "TOKEN", "CutShort", "Data", "EndOfMessage", "Event", "Headers",
           "Malformed", "Reader", "Request", "RequestReader", "Response", "ResponseReader", "Target", "Unwritable",
           "chunk", "every", "first", "is_field_value", "is_token", "last_chunk", "request_head", "response_head",
           "target_of"]
