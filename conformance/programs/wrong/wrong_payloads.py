"""Runtimes with one mistake each in the events that they read and the outputs that they write. A class is named after
its mistake, and `check` is the check that catches it; `also` are others that cannot but catch it too."""
import io
import json
import re
from contextlib import redirect_stdout

from connection import Connection
from sound_runtime import Parts, Runtime


# ---- payloads --------------------------------------------------------------------------------------------------------

class SendsResponsesByPut(Runtime):
    check = "first_echo"

    def ask(self, method, path, body=None, headers=None):
        return super().ask("PUT" if path.endswith("/response") else method, path, body, headers)


class EncodesTwice(Runtime):
    check = "first_echo"

    def dump(self, output):
        return super().dump(json.dumps(output))


class CountsCharacters(Runtime):
    """Declares the length of a body in characters."""
    check, also = "utf8", {"kinds", "error_message", "error_texts", "long_text"}

    class Counting(Connection):
        def request(self, method, path, body=None, headers=None):
            length = len(body.decode()) if isinstance(body, bytes) else None
            if length is None or length == len(body):
                return super().request(method, path, body, headers)
            self.connect()
            head = f"{method} {path} HTTP/1.1\r\nHost: {self.address}\r\nContent-Length: {length}\r\n\r\n"
            return self.sock.sendall(head.encode() + body)

    connected = Counting


class RefusesEmptyEvents(Runtime):
    check = "payload_empty"

    def call(self, event, headers):
        if event == {}:
            raise ValueError("an event must have members")
        return super().call(event, headers)


class TakesNullForNoEvent(Runtime):
    check = "payload_null"

    def read(self, payload):
        event = super().read(payload)
        return {} if event is None else event


class WrapsScalars(Runtime):
    check = "payload_scalars"

    def respond(self, request, output):
        return super().respond(request, [output] if output is True else output)


class ManglesUtf8(Runtime):
    """Writes non-ASCII characters as question marks, unless they come from an escape."""
    check = "utf8"

    def call(self, event, headers):
        output = super().call(event, headers)
        return output.replace("ü", "?") if isinstance(output, str) else output


class DecodesLatin1(Runtime):
    """What goes in and out as Latin-1 looks whole from outside; the handler sees other letters."""
    check = "utf8"

    def read(self, payload):
        return json.loads(payload.decode("latin-1"))

    def dump(self, output):
        try:
            return super().dump(output).decode().encode("latin-1")
        except UnicodeEncodeError:
            return super().dump(output)


class WritesLatin1IfItFits(Runtime):
    """As some clients do with a body that is a text."""
    check = "utf8"

    def dump(self, output):
        body = super().dump(output)
        try:
            return body if isinstance(output, dict) else body.decode().encode("latin-1")
        except UnicodeEncodeError:
            return body


class DecodesPartByPart(Runtime):
    """Loses what is cut apart where one part of what is read ends."""
    check, part = "long_text", 4096

    def read(self, payload):
        parts = [payload[begin:begin + self.part] for begin in range(0, len(payload), self.part)]
        return json.loads("".join(part.decode(errors="ignore") for part in parts))


class CutsLongOutputs(Runtime):
    """Counts characters where it cuts, so that text beyond ASCII is cut before its time."""
    check = "long_text"

    def dump(self, output):
        body = super().dump(output)
        return body if len(body) < 200_000 or body.isascii() else body[:len(body.decode())] + b'"'


class DropsNulls(Runtime):
    check = "kinds"

    def dump(self, output):
        return super().dump(self.without(output))

    def without(self, value):
        if isinstance(value, dict):
            return {name: self.without(member) for name, member in value.items()
                    if member is not None or name == "stackTrace"}
        return value


class RenamesMembers(Runtime):
    """To camel case, as serializers of some frameworks do."""
    check = "kinds"

    def dump(self, output):
        if isinstance(output, dict) and "snake_case_name" in output:
            output = {re.sub(r"_(\w)", lambda found: found[1].upper(), name): value for name, value in output.items()}
        return super().dump(output)


class CutsLongNames(Runtime):
    """After 255 letters."""
    check = "kinds"

    def dump(self, output):
        return super().dump(self.cut(output))

    def cut(self, value):
        if isinstance(value, dict):
            return {name[:255]: self.cut(member) for name, member in value.items()}
        return list(map(self.cut, value)) if isinstance(value, list) and not isinstance(value, Parts) else value


class RewritesDates(Runtime):
    check = "kinds"

    def read(self, payload):
        return json.loads(re.sub(rb'(\d\d:\d\d:\d\d)\.000\+00:00"', rb'\1Z"', payload))


class EscapesMarkup(Runtime):
    check = "kinds"

    def dump(self, output):
        return super().dump(output).replace(b"<b>", b"&lt;b&gt;") if isinstance(output, dict) else super().dump(output)


class TrimsTexts(Runtime):
    check = "kinds"

    def read(self, payload):
        return json.loads(payload, object_hook=lambda value: {
            name: member.strip(" ") if isinstance(member, str) else member for name, member in value.items()})


class DropsLineEnds(Runtime):
    check = "escapes"

    def dump(self, output):
        return super().dump(output).replace(b"\\f\\n", b"")


class CutsDeepEvents(Runtime):
    """Reads no deeper than 64 levels, as some parsers do by default."""
    check = "nesting"

    def read(self, payload):
        return self.cut(super().read(payload), 64)

    def cut(self, value, levels):
        if isinstance(value, dict):
            return {name: self.cut(member, levels - 1) for name, member in value.items()} if levels else None
        if isinstance(value, list):
            return [self.cut(member, levels - 1) for member in value] if levels else None
        return value


class ReadsSinglePrecision(Runtime):
    check = "numbers"

    def read(self, payload):
        return json.loads(payload, parse_float=lambda text: float(f"{float(text):.7g}"))


class ReadsOneMegabyte(Runtime):
    """Keeps a buffer of a fixed size: a longer event is cut."""
    check = "payload_limit"

    def read(self, payload):
        if len(payload) > 1_000_000:
            payload = payload[:1_000_000] + b'"}'
        return super().read(payload)


class CutsLargeOutputs(Runtime):
    check = "output_limit"

    def dump(self, output):
        body = super().dump(output)
        return body[:6_000_000] + b'"' if len(body) == 6_291_456 else body


class PutsPrintsIntoTheResponse(Runtime):
    check = "stdout"

    def call(self, event, headers):
        with redirect_stdout(io.StringIO()) as printed:
            output = super().call(event, headers)
        return printed.getvalue() or output


class MergesEvents(Runtime):
    """Reads each event into the object of the one before it."""
    check = "events_apart"
    kept = {}

    def read(self, payload):
        event = super().read(payload)
        if not isinstance(event, dict) or not event.get("do"):
            return event
        self.kept.update(event)
        return dict(self.kept)


class StreamsWithoutChunks(Runtime):
    check = "stream"

    def stream(self, request, parts):
        answer = self.ask("POST", f"invocation/{request}/response", "".join(parts).encode(),
                          {"Lambda-Runtime-Function-Response-Mode": "streaming"})
        self.sent(answer, request, parts)
