"""A program that serves a configuration of its own on free ports by a launcher, and stops it.

usage: serve_once.py LAUNCHER FOLDER"""
import json
import os
import subprocess
import sys


def serve(launcher, folder):
    sys.path.insert(0, os.path.join(os.path.dirname(launcher), "tools"))
    from lambda_local.service import ask, free_ports
    invoke, port = free_ports(2, set())
    path = os.path.join(folder, "service.json")
    with open(path, "w") as file:
        json.dump({"account": "123456789012", "region": "us-east-2", "invokePort": invoke,
                   "functions": [{"name": "f", "ports": [port]}]}, file)
    child = subprocess.Popen([launcher, "serve", path], stderr=subprocess.PIPE, text=True)
    try:
        for line in child.stderr or ():
            if line.endswith("listening\n"):
                ask(invoke, "POST", "/_local/stop")
            else:
                sys.stderr.write(line)
        status = child.wait(20)
        print("stopped in order" if status == 0 else "it was not stopped in order")
        return status
    finally:
        child.kill()
        child.wait()


if __name__ == "__main__":
    sys.exit(serve(*sys.argv[1:]))
