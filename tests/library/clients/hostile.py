"""Clients that go away, send rubbish, flood or stop responding, and web pages."""
import json
import socket
import threading
import time

from lambda_local.service import ask
from tests.library.clients.kit import INVOKE, NEXT, PORT, Service, later, raw, read_all, runtime_once
from tests.library.counted import check


def hostile():
    parked = f"GET {NEXT} HTTP/1.1\r\nHost: h\r\n\r\n".encode()
    with Service([("f", 1, {})]) as service:
        for name, behind in (("", b""), (", with a request behind it", parked),
                             (", with a stray byte behind it", b"G")):
            before = service.stats()["entries"]
            gone = raw(PORT + 1, parked)
            service.entries(before + 1)
            gone.sendall(behind)
            time.sleep(0.05)
            gone.close()
            check("a runtime that goes away while it waits is withdrawn" + name, service.entries(before + 2), True)
            waiting = later(runtime_once, PORT + 1)
            service.entries(before + 3)
            answer = ask(PORT, "POST", INVOKE % "f", b"7")
            check("a new one gets the next invocation" + name, (answer[0], answer[2]), (200, b"7"))
            waiting()
        older = raw(PORT + 1, parked)
        service.entries(service.stats()["entries"] + 1)
        newer = later(runtime_once, PORT + 1)
        check("a second Next replaces the first", older.recv(12), b"HTTP/1.1 403")
        answer = ask(PORT, "POST", INVOKE % "f", b"8")
        check("and gets the next invocation", (answer[0], answer[2]), (200, b"8"))
        newer()
        before = service.stats()["entries"]
        cut = raw(PORT, f"POST {INVOKE % 'f'} HTTP/1.1\r\nHost: h\r\nContent-Length: 100\r\n\r\nabc".encode())
        time.sleep(0.05)
        cut.close()
        time.sleep(0.1)
        check("a body that is cut in the middle is no call", service.stats()["entries"], before)
        stop = b"POST /_local/stop HTTP/1.1\r\nHost: h\r\n"
        for name, rubbish in (("rubbish", b"GARBAGE\r\n\r\n"),
                              ("no Host", b"GET /_local/stats HTTP/1.1\r\n\r\n"),
                              ("two Hosts", stop + b"Host: h\r\nContent-Length: 0\r\n\r\n"),
                              ("a coding that is not chunked", stop + b"Transfer-Encoding: gzip\r\n\r\n"),
                              ("two lengths", stop + b"Content-Length: 1\r\nContent-Length: 2\r\n\r\nab")):
            seen = read_all(raw(PORT, rubbish))
            check(f"{name} is refused and no call",
                  (seen == b"" or seen.startswith(b"HTTP/1.1 400"), service.stats()["entries"]), (True, before))
        waiting = later(runtime_once, PORT + 1)
        service.entries(before + 1)
        chunked = raw(PORT, f"POST {INVOKE % 'f'} HTTP/1.1\r\nHost: h\r\nTransfer-Encoding: chunked\r\nConnection: "
                            f"close\r\n\r\n3\r\n[1,\r\n2\r\n2]\r\n0\r\n\r\n".encode())
        check("a chunked payload is collected whole", read_all(chunked).split(b"\r\n\r\n", 1)[1], b"[1,2]")
        waiting()
        waiting = later(runtime_once, PORT + 1, b"x" * 6_291_457)
        service.entries(service.stats()["entries"] + 1)
        answer = ask(PORT, "POST", INVOKE % "f", b"1")
        check("a response of one byte too many", (answer[0], json.loads(answer[2])["errorType"]),
              (200, "Function.ResponseSizeTooLarge"))
        waiting()
        piped = raw(PORT, b"GET /_local/stats HTTP/1.1\r\nHost: h\r\n\r\n" * 3
                    + b"GET /_local/stats HTTP/1.1\r\nHost: h\r\nConnection: close\r\n\r\n")
        check("pipelined requests are all answered", read_all(piped).count(b"HTTP/1.1 200"), 4)
        idle = [socket.create_connection(("127.0.0.1", PORT)) for _ in range(20)]
        half = [raw(PORT, b"GET /_local/st"),
                raw(PORT, f"POST {INVOKE % 'f'} HTTP/1.1\r\nHost: h\r\nContent-Length: 9\r\n\r\n1".encode())]
        waiting = raw(PORT + 1, parked)
        service.entries(service.stats()["entries"] + 1)
        begun = time.time()
        status, ended, _output = service.stop()
        check("a stop ends idle, half-sent and parked connections", (status, ended, time.time() - begun < 5),
              (202, 0, True))
        check("a parked Next is told the end", read_all(waiting)[:12], b"HTTP/1.1 500")
        del idle, half


def codings():
    """What a request is answered whose body has a transfer coding but `chunked` (RFC 9112, section 6.1)."""
    stop = b"POST /_local/stop HTTP/1.1\r\nHost: x\r\n%s\r\n0\r\n\r\n"
    with Service([("f", 1, {})]) as service:
        for fields in (["gzip, chunked"], ["identity, chunked"], ["gzip", "chunked"], ["chunked, gzip, chunked"]):
            seen = read_all(
                raw(PORT, stop % b"".join(b"Transfer-Encoding: " + field.encode() + b"\r\n" for field in fields)))
            check(f"{' and '.join(fields)} is refused", seen[:12] in (b"HTTP/1.1 501", b"HTTP/1.1 400"), shown=seen)
            seen = read_all(raw(PORT + 1, b"POST /2018-06-01/runtime/init/error HTTP/1.1\r\nHost: x\r\n"
                                          b"Transfer-Encoding: %s\r\n\r\n0\r\n\r\n" % ", ".join(fields).encode()))
            check("and on an environment's port", seen[:12] in (b"HTTP/1.1 501", b"HTTP/1.1 400"), shown=seen)
        check("none of them is a call", service.stats()["entries"], 0)
        check("Chunked is chunked",
              read_all(raw(PORT, (stop % b"Transfer-Encoding: Chunked\r\nConnection: close\r\n")))[:12],
              b"HTTP/1.1 202")
        check("and stops the service", service.process.wait(10), 0)


def web_pages():
    """A browser's requests, and hosts that are not this machine's."""
    def asked(port, method, path, **fields):
        return ask(port, method, path, None, {name.replace("_", "-"): value for name, value in fields.items()})[0]
    with Service([("f", 1, {})], hosts="api.example,other.test") as service:
        page = {"Origin": "https://evil.example", "Sec_Fetch_Site": "cross-site", "Content_Type": "text/plain"}
        for name, port, method, path in (("stop", PORT, "POST", "/_local/stop"),
                                         ("invoke", PORT, "POST", INVOKE % "f"),
                                         ("read the history", PORT, "GET", "/_local/history"),
                                         ("poll", PORT + 1, "GET", NEXT)):
            check(f"a web page cannot {name}", asked(port, method, path, **page), 403)
        check("a page without an origin is known by Sec-Fetch-Site",
              asked(PORT, "GET", "/_local/stats", Sec_Fetch_Site="cross-site"), 403)
        check("what its user types is not", asked(PORT, "GET", "/_local/stats", Sec_Fetch_Site="none"), 200)
        for host, status in (("evil.example", 403), ("api.example", 200), (f"API.Example.:{PORT}", 200),
                             ("other.test", 200), ("example", 200),
                             ("x.api.example", 403), ("api.example,other.test", 403),
                             (f"host.docker.internal:{PORT}", 200), ("a b", 400)):
            check(f"the host {host!r} gets {status}", asked(PORT, "GET", "/_local/stats", Host=host), status)
        check("none of them is a call", service.stats()["entries"], 0)
        service.stop()
    for hosts in (None, ""):
        with Service([("f", 1, {})], hosts=hosts) as service:
            check(f"of the hosts {hosts!r} none is listed", asked(PORT, "GET", "/_local/stats", Host="api.example"),
                  403)
            service.stop()


def flood(port, over):
    while not over.is_set():
        try:
            socket.create_connection(("127.0.0.1", port), 1).close()
        except OSError:
            pass


def slowest_of(work):
    """The most seconds that one of twenty takes."""
    slowest = 0.0
    for _ in range(20):
        begun = time.monotonic()
        work()
        slowest = max(slowest, time.monotonic() - begun)
    return slowest


def floods_and_stalls():
    """Peers that flood, stop responding, send far too much or end their side."""
    with Service([("f", 3, {"timeout": 60})]) as service:
        long = b'"' + b"x" * 40_000_000 + b'"'
        check("a payload of 40 MB is told so", ask(PORT, "POST", INVOKE % "f", long)[0], 413)
        check("a report of 40 MB is told so", ask(PORT + 1, "POST", "/2018-06-01/runtime/init/error", long)[0], 413)
        quiet = slowest_of(service.stats)
        over = threading.Event()
        floods = [threading.Thread(target=flood, args=(PORT + 3, over)) for _ in range(2)]
        for thread in floods:
            thread.start()
        slowest = slowest_of(service.stats)
        over.set()
        for thread in floods:
            thread.join()
        check("a crowd at one port keeps nobody at another waiting", slowest < 1.5 + 10 * quiet,
              shown=(slowest, quiet))
        runtime = later(runtime_once, PORT + 1)
        check("a runtime waits", service.entries(1), True)
        caller = raw(
            PORT, b"POST /2015-03-31/functions/f/invocations HTTP/1.1\r\nHost: x\r\nContent-Length: 1\r\n\r\n5")
        caller.shutdown(socket.SHUT_WR)
        check("a caller that has ended its side is answered", read_all(caller)[:12], b"HTTP/1.1 200")
        runtime()
        parked = raw(PORT + 2, f"GET {NEXT} HTTP/1.1\r\nHost: x\r\n\r\n".encode())
        begun = time.monotonic()
        still = [raw(PORT, data) for data in (
            b"", b"GET /_local/st",
            b"POST /2015-03-31/functions/f/invocations HTTP/1.1\r\nHost: x\r\nContent-Length: 20\r\n\r\n{")]
        for name, connection in zip(("nothing", "half a head", "half a body"), still):
            connection.settimeout(40)
            seen = read_all(connection)
            check(f"who sends {name} loses its place", (seen, 15 < time.monotonic() - begun < 35), (b"", True))
        parked.setblocking(False)
        try:
            seen = parked.recv(1)
        except BlockingIOError:
            seen = None
        check("who waits keeps its place", seen, None)
        check("the service settles after them", service.stop(), (202, 0, "admitted 1 throttled 0 failed 0\n"))
