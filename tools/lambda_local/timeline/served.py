"""The port on which the live page is served: on loopback, for a browser on this machine, and for no other site in
it."""
import http.server
import ipaddress
import json
import socketserver
from email.message import Message
from typing import TYPE_CHECKING, Any, List, Optional

from ..service import Fault, free_ports
from .live_page import SCRIPT, page
if TYPE_CHECKING:
    from .live import Live

HEADERS = (
    ("Cache-Control", "no-store"), ("X-Content-Type-Options", "nosniff"), ("Referrer-Policy", "no-referrer"),
    ("Cross-Origin-Resource-Policy", "same-origin"),
    ("Content-Security-Policy",
     "default-src 'none'; script-src 'self'; style-src 'unsafe-inline'; connect-src 'self'; base-uri 'none'; "
                                "form-action 'none'; frame-ancestors 'none'"),
)


def is_own(headers: Message) -> bool:
    """Whether a request may be from this page, or from a person's own client. Other sites that a browser shows are kept
    out: `Origin` names them, and `Host` any name of theirs that resolves to this machine."""
    hosts: List[str] = headers.get_all("Host", [])
    origins: List[str] = headers.get_all("Origin", [])
    if len(hosts) != 1 or not is_this_machine(hosts[0]):
        return False
    if any(origin != f"http://{hosts[0]}" for origin in origins):
        return False
    return all(site in ("none", "same-origin") for site in headers.get_all("Sec-Fetch-Site", []))


def is_this_machine(host: str) -> bool:
    """Whether a `Host` is `localhost` or an address, with or without a port."""
    name = host.rpartition("]")[0].lstrip("[") if host.startswith("[") else host.partition(":")[0]
    if name.lower() == "localhost":
        return True
    try:
        ipaddress.ip_address(name)
    except ValueError:
        return False
    return True


class Handler(http.server.BaseHTTPRequestHandler):
    protocol_version, timeout = "HTTP/1.1", 20
    server_version, sys_version = "lambda_local", ""
    server: "Server"

    def do_GET(self) -> None:
        path, _, query = self.path.partition("?")
        if not is_own(self.headers):
            self.answer(403, "text/plain", "this page answers its own requests alone: open it by its address\n")
        elif path == "/":
            version, drawn = self.server.live.drawn()
            self.answer(200, "text/html", page(self.server.live.url, version, drawn))
        elif path == "/live.js":
            self.answer(200, "text/javascript", SCRIPT)
        elif path == "/drawing":
            self.drawing(query)
        else:
            self.answer(404, "text/plain", "no such page\n")

    do_HEAD = do_GET

    def drawing(self, query: str) -> None:
        version, drawn = self.server.live.drawn()
        if query == f"after={version}":
            self.answer(204, None, "")
        else:
            self.answer(200, "application/json", json.dumps({"version": version, "drawn": drawn}))

    def answer(self, status: int, kind: Optional[str], text: str) -> None:
        body = text.encode()
        self.send_response(status)
        if kind:
            self.send_header("Content-Type", f"{kind}; charset=utf-8")
            self.send_header("Content-Length", str(len(body)))
        for name, value in HEADERS:
            self.send_header(name, value)
        self.end_headers()
        if self.command != "HEAD":
            self.wfile.write(body)

    def log_message(self, *_: object) -> None:
        pass


class Server(http.server.ThreadingHTTPServer):
    daemon_threads, block_on_close = True, False

    def __init__(self, live: "Live") -> None:
        self.live = live
        for tries_left in range(4, -1, -1):  # between looking and listening another program can take a port
            try:
                super().__init__(("127.0.0.1", free_ports(1, ())[0]), Handler)
                break
            except OSError as fault:
                if not tries_left:
                    raise Fault(4, f"no port for the page: {fault.strerror}") from None
        self.url = f"http://127.0.0.1:{self.server_address[1]}/"

    def server_bind(self) -> None:
        """(As http.server does it, but without a look-up of this machine's name, which can take long.)"""
        socketserver.TCPServer.server_bind(self)
        self.server_name, self.server_port = str(self.server_address[0]), int(self.server_address[1])

    def handle_error(self, request: Any, client_address: Any) -> None:
        """Reports an error, unless a browser went away in the middle of an answer."""
