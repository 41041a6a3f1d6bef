"""Starts Python runtimes by forking: a process that has imported what the bundled runtime imports, and nothing of a
function. What it forks is a runtime as a fresh interpreter would be, for a fraction of the time: handlers and all that
they import are loaded after the fork, each for itself.

usage: forker.py RUNTIME DESCRIPTOR (the guard calls it, by the function's interpreter and with its variables)

On the socket with that number it says {"ready": true} once, or {"reason": ..} and ends. Then each request, a length and
JSON with "cwd" and "env" and the descriptor of the output, is answered by {"pid": ..}: the runtime's parent has ended
by then, so that the guard has it. This file is read by any Python from 3.6 on, and imports nothing beside what the
runtime does."""
import array
import atexit
import gc
import json
import os
import socket
import sys
import threading
import time
import types

MYPY = False
if MYPY:  # (a runtime imports no typing)
    from typing import Any, Dict, Optional, Tuple
    Request = Dict[str, Any]

LENGTH = 4  # bytes, the most significant first
MODULE = "lambda_local_runtime"


def frame(message: object) -> bytes:
    data = json.dumps(message).encode()
    return len(data).to_bytes(LENGTH, "big") + data


def receive(channel: socket.socket) -> "Tuple[Optional[Request], int]":
    """The next request with the descriptor that came with it; none at the end."""
    data, handles, wanted = b"", array.array("i"), LENGTH
    while len(data) < wanted:
        piece, extra, _, _ = channel.recvmsg(wanted - len(data), socket.CMSG_SPACE(handles.itemsize))
        for level, kind, held in extra:
            if level == socket.SOL_SOCKET and kind == socket.SCM_RIGHTS:
                handles.frombytes(held[:len(held) - len(held) % handles.itemsize])
        if not piece:
            return None, -1
        data += piece
        if len(data) == LENGTH == wanted:
            wanted += int.from_bytes(data, "big")
    request: "Request" = json.loads(data[LENGTH:].decode())
    return request, handles[0]


def has_threads() -> bool:
    return len(os.listdir("/proc/self/task")) > 1


def serve(channel: socket.socket) -> "Tuple[Optional[Request], int]":
    """Serves requests. In each process that it forks, gives its request and its output; at the end, nothing."""
    while True:
        request, output = receive(channel)
        if request is None:
            return None, -1
        reading, writing = os.pipe()
        between = os.fork()
        if between == 0:
            runtime = os.fork()
            if runtime == 0:
                os.close(reading)
                os.close(writing)
                channel.close()
                return request, output
            os.write(writing, str(runtime).encode())
            os._exit(0)
        os.close(writing)
        os.close(output)
        pid = os.read(reading, 32)
        os.close(reading)
        os.waitpid(between, 0)
        answer: "Dict[str, object]" = {"pid": int(pid)} if pid else {"reason": "it could not fork"}
        channel.sendall(frame(answer))


def become(path: str, request: "Request", output: int) -> types.ModuleType:
    """Makes this process what the runtime at this path is at its start; the module whose code is to be run."""
    os.setsid()
    os.chdir(request["cwd"])
    os.dup2(output, 1)
    os.dup2(output, 2)
    os.close(output)
    os.environ.clear()
    os.environ.update(request["env"])
    time.tzset()
    sys.argv[:] = [path]
    sys.path[0] = os.path.dirname(path)
    module = types.ModuleType("__main__")
    module.__file__ = path
    module.__dict__["__builtins__"] = __builtins__
    sys.modules["__main__"] = module
    return module


def prepare(path: str, channel: socket.socket) -> "Optional[types.CodeType]":
    """The code of the runtime, whose imports have been made; none if no fork could be as a fresh interpreter."""
    with open(path, "rb") as file:
        code: "types.CodeType" = compile(file.read(), path, "exec")
    module = types.ModuleType(MODULE)
    module.__file__ = path
    exec(code, module.__dict__)  # (as a module it only defines)
    if has_threads():  # (what starts with the interpreter has started some, and a fork has none)
        channel.sendall(frame({"reason": "there are threads"}))
        return None
    if hasattr(gc, "freeze"):
        gc.freeze()
    del sys.modules["gc"]  # (a runtime has not imported it)
    channel.sendall(frame({"ready": True}))
    return code


def leave(end: SystemExit) -> None:
    """Ends this process as its interpreter would, but for taking everything apart: that would copy all that the fork
    shares. A status that is not a number is left to the interpreter."""
    if not isinstance(end.code, int):
        raise end
    threading._shutdown()  # type: ignore[attr-defined]
    atexit._run_exitfuncs()
    for stream in (sys.stdout, sys.stderr):
        try:
            stream.flush()
        except (AttributeError, OSError, ValueError):
            pass
    os._exit(end.code & 0xFF)


if __name__ == "__main__":
    _channel = socket.socket(fileno=int(sys.argv[2]))
    _code = prepare(sys.argv[1], _channel)
    _request, _output = serve(_channel) if _code is not None else (None, -1)
    if _request is not None and _code is not None:
        _own = sys.modules["__main__"]  # (kept: its names are in use)
        try:
            exec(_code, become(sys.argv[1], _request, _output).__dict__)
        except SystemExit as _end:
            leave(_end)
