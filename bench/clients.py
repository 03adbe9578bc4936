#!/usr/bin/env python3
"""clients.py MATCHER: clients that others wrote speak to `matcher session ann bob`.

A session speaks over standard input and output, so a relay hands the bytes of one connection on a loopback socket to a session's pipes and back,
as they are. Python's http.client and curl (where it is there) then replace a table, look at the edition, repeat the command, ask an unknown
target, and send a body for which they ask leave by `Expect: 100-continue`; the last one is of 33,554,432 bytes, the greatest that is taken.
"""
import http.client
import shutil
import socket
import subprocess
import sys
import tempfile
import threading

MATCHER = sys.argv[1]
GREATEST = 33554432


def copy(read, write, end):
    while True:
        piece = read(65536)
        if not piece:
            break
        write(piece)
    end()


class Relay:
    """A session behind a port of the loopback, for one connection after the other."""

    def __init__(self, folder):
        self.folder = folder
        self.listener = socket.create_server(("127.0.0.1", 0))
        self.port = self.listener.getsockname()[1]
        threading.Thread(target=self.serve, daemon=True).start()

    def serve(self):
        while True:
            connection, _ = self.listener.accept()
            ran = subprocess.Popen([MATCHER, "session", "ann", "bob"], cwd=self.folder, stdin=subprocess.PIPE, stdout=subprocess.PIPE, bufsize=0)
            back = threading.Thread(target=copy, args=(ran.stdout.read, connection.sendall, lambda: connection.shutdown(socket.SHUT_WR)))
            back.start()
            try:
                copy(connection.recv, ran.stdin.write, ran.stdin.close)
            except OSError:
                pass
            back.join()
            ran.wait()
            connection.close()


def expect(what, found, wanted):
    if found != wanted:
        sys.exit(f"{what}: {found!r}, and not {wanted!r}")
    print(f"{what}: {found[0]} {found[1].decode()}")


def by_python(port):
    client = http.client.HTTPConnection("127.0.0.1", port)

    def ask(method, target, body=None, **fields):
        headers = {"X-Chair": "ann", **{name.replace("_", "-"): value for name, value in fields.items()}}
        client.request(method, target, body=body, headers=headers)
        reply = client.getresponse()
        return reply.status, reply.read()

    expect("http.client, an edit", ask("POST", "/edit/papers/replace", b"p1,1,\np2,1,\n", X_Number="1", X_Base="0"), (200, b'{"edition":1}'))
    expect("http.client, a look", ask("GET", "/edition"), (200, b'{"edition":1}'))
    expect("http.client, a repeat", ask("POST", "/edit/papers/replace", b"p1,1,\np2,1,\n", X_Number="1", X_Base="0"), (200, b'{"edition":1}'))
    expect("http.client, no route", ask("GET", "/nothing"), (404, b'{"refused":"no-route"}'))
    client.close()


def by_curl(port, folder):
    def ask(*words):
        ran = subprocess.run(["curl", "-s", "-w", "\n%{http_code}", "-H", "X-Chair: bob", *words], stdout=subprocess.PIPE, check=True)
        body, status = ran.stdout.rsplit(b"\n", 1)
        return int(status), body

    at = f"http://127.0.0.1:{port}"
    expect("curl, a look", ask(f"{at}/edition"), (200, b'{"edition":1}'))
    edit = ["-H", "X-Number: 1", "-H", "X-Base: 1", "-H", "Expect: 100-continue", "--data-binary", "r1,,0,1\nr2,,0,1\n"]
    expect("curl, an edit behind 100 Continue", ask(*edit, f"{at}/edit/reviewers/replace"), (200, b'{"edition":2}'))
    with open(f"{folder}/great", "wb") as file:
        file.write(b"x" * GREATEST)
    great = ["-H", "X-Number: 2", "--data-binary", f"@{folder}/great"]
    expect("curl, the greatest body", ask(*great, f"{at}/draw/1"), (404, b'{"refused":"unknown-publication"}'))
    with open(f"{folder}/great", "ab") as file:
        file.write(b"x")
    expect("curl, one byte more", ask("-H", "Expect:", *great, f"{at}/draw/1"), (413, b'{"refused":"too-large"}'))


def main():
    folder = tempfile.mkdtemp()
    relay = Relay(folder)
    by_python(relay.port)
    if shutil.which("curl"):
        by_curl(relay.port, folder)
    else:
        print("curl isn't there")
    shutil.rmtree(folder)


main()
