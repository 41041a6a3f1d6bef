#!/usr/bin/env python3
"""Runtimes by the libraries for HTTP that Python has: http.client, urllib, asyncio.

usage: libraries.py LIBRARY   (in a folder with the kit's handlers, as the kit starts a runtime)"""
import os
import select
import sys

sys.path.insert(0, os.path.join(os.path.dirname(os.path.dirname(os.path.realpath(__file__))), "wrong"))
from connection import Answer, Headers  # noqa: E402
from sound_runtime import PATH, Parts, Runtime  # noqa: E402


class OfLibrary(Runtime):
    """A runtime that asks by `exchange`, and streams nothing."""

    def ask(self, method, path, body=None, headers=None):
        found = self.exchange(method, PATH + path, body, {**self.headers(), **(headers or {})})
        values = Headers()
        for name, value in found[1]:
            values[name] = value
        return Answer(found[0], values, found[2])

    def respond(self, request, output):
        return super().respond(request, "".join(output) if isinstance(output, Parts) else output)


class HttpClient(OfLibrary):
    """With a connection that is kept, and looked at before it is used again, as urllib3 does."""
    kept = None

    def exchange(self, method, path, body, headers):
        import http.client
        if self.kept and self.kept.sock and select.select([self.kept.sock], [], [], 0)[0]:
            self.kept.close()
        for attempt in (1, 2):
            self.kept = self.kept or http.client.HTTPConnection(self.address)
            try:
                self.kept.request(method, path, body, headers)
                answer = self.kept.getresponse()
                return answer.status, answer.getheaders(), answer.read()
            except (http.client.HTTPException, ConnectionError):
                self.kept.close()
                if attempt == 2 or method != "GET":
                    raise
        return None


class Urllib(OfLibrary):
    """A connection for each request; refusals are exceptions."""

    def exchange(self, method, path, body, headers):
        import urllib.error
        import urllib.request
        request = urllib.request.Request(f"http://{self.address}{path}", body, headers, method=method)
        try:
            with urllib.request.build_opener(urllib.request.ProxyHandler({})).open(request) as answer:
                return answer.status, answer.getheaders(), answer.read()
        except urllib.error.HTTPError as refusal:
            return refusal.code, list(refusal.headers.items()), refusal.read()


class Asyncio(OfLibrary):
    """A loop, and a connection for each request."""
    loop = None

    def exchange(self, method, path, body, headers):
        import asyncio
        self.loop = self.loop or asyncio.new_event_loop()
        return self.loop.run_until_complete(self.exchanged(method, path, body, headers))

    async def exchanged(self, method, path, body, headers):
        import asyncio
        host, _, port = self.address.rpartition(":")
        reader, writer = await asyncio.open_connection(host, int(port))
        lines = [f"{method} {path} HTTP/1.1", f"Host: {self.address}", "Connection: close",
                 *(f"{name}: {value}" for name, value in headers.items())]
        lines += [f"Content-Length: {len(body or b'')}"] if method == "POST" else []
        writer.write("\r\n".join(lines).encode() + b"\r\n\r\n" + (body or b""))
        await writer.drain()
        status, pairs = 100, []
        while status < 200:
            head = (await reader.readuntil(b"\r\n\r\n")).decode("latin-1").split("\r\n")
            status = int(head[0].split()[1])
        pairs = [(line.partition(":")[0], line.partition(":")[2].strip()) for line in head[1:] if line]
        found = {name.lower(): value for name, value in pairs}
        if "transfer-encoding" in found:
            data = bytearray()
            while size := int(await reader.readuntil(b"\r\n"), 16):
                data += await reader.readexactly(size)
                await reader.readexactly(2)
        else:
            data = await reader.readexactly(int(found.get("content-length", 0)))
        writer.close()
        return status, pairs, bytes(data)


LIBRARIES = {name: shape for name, shape in list(globals().items())
             if isinstance(shape, type) and issubclass(shape, OfLibrary) and shape is not OfLibrary}

if __name__ == "__main__":
    LIBRARIES[sys.argv[1]]().run()
