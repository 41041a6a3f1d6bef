"""Clients of debuggers: of Node's inspector, by its protocol over a WebSocket (RFC 6455), and of debugpy, by the Debug
Adapter Protocol."""
import base64
import json
import os
import socket
import struct
import urllib.request

SECONDS = 60.0


class Client:
    """Has commands answered, and waits for events."""

    def __init__(self, port):
        self.socket = socket.create_connection(("127.0.0.1", port), SECONDS)
        self.file = self.socket.makefile("rb")
        self.count, self.events = 0, []

    def close(self):
        self.file.close()
        self.socket.close()

    def send(self, message):
        raise NotImplementedError

    def receive(self):
        raise NotImplementedError

    def wait(self, name):
        """The next event of this name, of those that no one has waited for."""
        while True:
            for event in self.events:
                if name in (event.get("method"), event.get("event")):
                    self.events.remove(event)
                    return event
            self.events.append(self.receive())


class Inspector(Client):
    """A session with the program that Node's inspector at this port has."""

    def __init__(self, port):
        with urllib.request.urlopen(f"http://127.0.0.1:{port}/json/list", timeout=SECONDS) as answer:
            self.target = json.load(answer)[0]
        super().__init__(port)
        path = "/" + self.target["webSocketDebuggerUrl"].split("/", 3)[3]
        self.socket.sendall((f"GET {path} HTTP/1.1\r\nHost: 127.0.0.1:{port}\r\nUpgrade: websocket\r\n"
                             f"Connection: Upgrade\r\nSec-WebSocket-Version: 13\r\nSec-WebSocket-Key: "
                             f"{base64.b64encode(os.urandom(16)).decode()}\r\n\r\n").encode())
        head = [self.file.readline()]
        while head[-1].strip():
            head.append(self.file.readline())
        assert b" 101 " in head[0], head

    def send(self, message):
        data, mask = json.dumps(message).encode(), os.urandom(4)
        length = bytes([0x80 | len(data)]) if len(data) < 126 else bytes([0x80 | 126]) + struct.pack("!H", len(data))
        self.socket.sendall(b"\x81" + length + mask + bytes(byte ^ mask[at % 4] for at, byte in enumerate(data)))

    def receive(self):
        _, length = self.file.read(2)
        if length >= 126:
            length = int.from_bytes(self.file.read(2 if length == 126 else 8), "big")
        return json.loads(self.file.read(length))

    def ask(self, method, **parameters):
        """What a command gives."""
        self.count += 1
        self.send({"id": self.count, "method": method, "params": parameters})
        while (message := self.receive()).get("id") != self.count:
            self.events.append(message)
        return message.get("result")

    def begin(self):
        """Attaches, and lets a program that waits for that go on to its first line, at which it stands."""
        self.ask("Runtime.enable")
        self.ask("Debugger.enable")
        self.ask("Runtime.runIfWaitingForDebugger")

    def resume(self):
        self.ask("Debugger.resume")


class Adapter(Client):
    """A session with debugpy at this port. It has no program to start, and attaches at once."""

    def __init__(self, port):
        super().__init__(port)
        self.ask("initialize", adapterID="debugpy", clientID="tests", linesStartAt1=True, pathFormat="path")
        number = self.request("attach", justMyCode=False)
        self.wait("initialized")
        self.ask("configurationDone")
        self.answer_to(number)

    def send(self, message):
        data = json.dumps(message).encode()
        self.socket.sendall(f"Content-Length: {len(data)}\r\n\r\n".encode() + data)

    def receive(self):
        length = 0
        while line := self.file.readline().strip():
            name, _, value = line.partition(b":")
            length = int(value) if name.lower() == b"content-length" else length
        return json.loads(self.file.read(length))

    def request(self, command, **arguments):
        self.count += 1
        self.send({"seq": self.count, "type": "request", "command": command, "arguments": arguments})
        return self.count

    def answer_to(self, number):
        while True:
            for message in self.events:
                if message.get("request_seq") == number:
                    self.events.remove(message)
                    assert message["success"], message
                    return message.get("body")
            self.events.append(self.receive())

    def ask(self, command, **arguments):
        return self.answer_to(self.request(command, **arguments))

    def resume(self):
        """Has the thread go on that stands."""
        self.ask("continue", threadId=self.wait("stopped")["body"]["threadId"])

    def close(self):
        self.ask("disconnect")
        super().close()
