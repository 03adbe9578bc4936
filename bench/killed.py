#!/usr/bin/env python3
"""killed.py MATCHER [STREAM]: a session that is killed behind any reply, and started again on the same desk.db, goes on.

For each k the program is started in a new folder, is sent the first k requests of the stream one after the other, each behind the reply to the
one before, and is then killed by SIGKILL. Started again on the same file, it is sent the whole stream. Compared with a run that nobody
stopped: the first k replies; the replies to all commands of chairs; and the rows of desk.db at the end. (Jobs that weren't published are
waiting again, so the replies to looks at them and to worker steps may differ.)
"""
import os
import shutil
import sqlite3
import subprocess
import sys
import tempfile

CHAIRS = ["ann", "bob"]


def requests_of(stream):
    """The requests of a stream whose lines end with CR LF or LF."""
    found = []
    while stream.strip(b"\r\n"):
        stream = stream.lstrip(b"\r\n")
        ends = [stream.find(mark) + len(mark) for mark in (b"\r\n\r\n", b"\n\n") if stream.find(mark) >= 0]
        head = stream[: min(ends)]
        length = 0
        for line in head.splitlines():
            if line.lower().startswith(b"content-length:"):
                length = int(line.split(b":")[1])
        found.append(stream[: len(head) + length])
        stream = stream[len(head) + length :]
    return found


class Session:
    def __init__(self, matcher, folder):
        self.ran = subprocess.Popen([matcher, "session", *CHAIRS], cwd=folder, stdin=subprocess.PIPE, stdout=subprocess.PIPE, bufsize=0)

    def ask(self, request):
        """Sends a request and reads its reply, whole."""
        self.ran.stdin.write(request)
        reply = b""
        while b"\r\n\r\n" not in reply:
            reply += self.more()
        head, body = reply.split(b"\r\n\r\n", 1)
        length = next(int(line.split(b":")[1]) for line in head.splitlines() if line.lower().startswith(b"content-length:"))
        while len(body) < length:
            body += self.more()
        return head + b"\r\n\r\n" + body

    def more(self):
        piece = self.ran.stdout.read(65536)
        if not piece:
            sys.exit(f"the program ended, with status {self.ran.wait()}")
        return piece

    def kill(self):
        self.ran.kill()
        self.ran.wait()

    def end(self):
        self.ran.stdin.close()
        return self.ran.wait()


def rows_of(folder):
    with sqlite3.connect(os.path.join(folder, "desk.db")) as database:
        return database.execute("select place, body from rows order by place").fetchall()


def is_command(request):
    return request.startswith((b"POST /edit/", b"POST /jobs/", b"POST /publish/", b"POST /draw/"))


def whole_run(matcher, folder, requests):
    session = Session(matcher, folder)
    replies = [session.ask(request) for request in requests]
    status = session.end()
    if status != 0:
        sys.exit(f"status {status} at the end")
    return replies


def main():
    matcher = os.path.realpath(sys.argv[1])
    here = os.path.dirname(os.path.realpath(__file__))
    stream = sys.argv[2] if len(sys.argv) > 2 else os.path.join(here, "../examples/session/worked.http")
    with open(stream, "rb") as file:
        requests = requests_of(file.read())
    folder = tempfile.mkdtemp()
    wanted = whole_run(matcher, folder, requests)
    rows = rows_of(folder)
    shutil.rmtree(folder)
    wrong = 0
    for count in range(len(requests) + 1):
        folder = tempfile.mkdtemp()
        session = Session(matcher, folder)
        first = [session.ask(request) for request in requests[:count]]
        session.kill()
        again = whole_run(matcher, folder, requests)
        same = first == wanted[:count]
        same = same and all(a == b for a, b, request in zip(again, wanted, requests) if is_command(request))
        same = same and rows_of(folder) == rows
        shutil.rmtree(folder)
        if not same:
            wrong += 1
            print(f"killed behind {count} replies: another course")
    print(f"killed behind 0 to {len(requests)} replies: {len(requests) + 1 - wrong} of {len(requests) + 1} as a run that nobody stopped; {len(rows)} rows")
    sys.exit(1 if wrong else 0)


main()
