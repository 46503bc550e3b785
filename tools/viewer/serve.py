#!/usr/bin/env -S python3 -B
"""Serves a page, only on this machine, in which a script is edited next to its picture: `shmview --serve`
starts it.

    tools/viewer/serve.py SHMVIEW SHMCHECK SHMSIM PACKAGES EXAMPLES TOUR PORT SCRIPT SWAP...

The second and the third program may be empty, and so may SCRIPT; PORT 0 is any free one. Only 127.0.0.1 is
listened to, and only requests for addresses that begin with a token, new at each start, succeed. Two things are
served: the page, which is made before the first request, and the answers to a script (answer.py). No request
names a file.
"""

from __future__ import annotations

import glob
import hmac
import json
import os
import re
import secrets
import signal
import subprocess
import sys
import threading
import webbrowser
from http.server import BaseHTTPRequestHandler, ThreadingHTTPServer
from pathlib import Path
from typing import Any

from show import filled, task_of, told_of, without_task

HERE = os.path.dirname(os.path.abspath(__file__))
MOST_BYTES = 1 << 20            # of a request's body
MOST_ANSWER = 64 << 20          # of an answer
MOST_AT_ONCE = 32               # requests; further ones fail with 503
MOST_CONDITION = 2000           # characters
RUN_SECONDS, RUN_BYTES = 10, 1 << 30
WAIT_SECONDS = 30               # for other runs to end
IDLE_SECONDS = 10               # for a request to arrive
# the program of each kind of answer
NEEDED = {"run": "shmview", "orders": "shmcheck", "exists": "shmcheck", "threads": "shmsim"}
SWAP = re.compile(r"(ram|sparse|mirror):[0-9]{1,9}|fuse:[0-9]{1,9}:[rw][0-9]{1,20}")
# what the page may load and ask: itself alone
HEADERS = {
    "Content-Security-Policy": "default-src 'none'; script-src 'unsafe-inline'; style-src 'unsafe-inline'; "
                               "img-src data:; "
                               "connect-src 'self'; base-uri 'none'; form-action 'none'; frame-ancestors "
                               "'none'",
    "X-Content-Type-Options": "nosniff",
    "Referrer-Policy": "no-referrer",
    "Cross-Origin-Resource-Policy": "same-origin",
    "Cache-Control": "no-store",
}


def read(path: str) -> Any:
    return Path(path).read_text("latin-1")


def swaps_beside(path: str) -> Any:
    """Returns the swap words that are stored with a script."""
    beside = os.path.splitext(path)[0] + ".swap"
    return read(beside).split() if os.path.isfile(beside) else ["ram:64"]


def opened(path: str) -> dict[str, Any]:
    """Returns a script without its task, the task, and the swap words."""
    script = read(path)
    return {"script": without_task(script), "task": task_of(script), "swap": swaps_beside(path)}


def examples_of(folder: str) -> Any:
    """Returns the examples: their names, scripts, tasks and swap words."""
    return [{"name": os.path.basename(path)[:-4], **opened(path)}
            for path in sorted(glob.glob(os.path.join(glob.escape(folder), "*.shm")))]


def lessons_of(tour: Any) -> Any:
    """Returns the lessons of docs/TOUR.md: for each its title, the name of its example, and its text, line by
    line."""
    if not os.path.isfile(tour):
        return []
    parts = re.split(r"^## ", Path(tour).read_text("utf-8"), flags=re.M)[1:]
    found = []
    for part in parts:
        title, _, body = part.partition("\n")
        example = re.search(r"^\[examples/(\w+)\.shm\]", body, re.M)
        if example:
            found.append({"title": title, "example": example[1], "text": text_of(body)})
    return found


def text_of(body: Any) -> Any:
    """The paragraphs of a lesson after the link to its example, without pictures and outputs. `?` begins a
    question and `!` its answer."""
    body = re.sub(r"^```\n.*?^```\n", "", body, flags=re.M | re.S)
    body = re.sub(r"</?details>|!\[[^]]*\]\([^)]*\)", "", body)
    body = re.sub(r"<summary>.*?</summary>\s*", "!", body)
    told = [" ".join(it.split()) for it in re.split(r"\n\s*\n|\n(?=- )", body)]
    kept = [re.sub(r"\[([^]]*)\]\([^)]*\)", r"\1", it) for it in told if it
            and not it.startswith("[examples/")]
    return [it.replace("**Question.**", "?").replace("**", "").replace("`", "") for it in kept]


class Runner:
    """One run at a time, with a limit of time and of memory."""

    def __init__(self, programs: dict[str, str], packages: str) -> None:
        self.programs = programs
        self.environment = {**os.environ, "PYTHONPATH": packages}
        self.turn = threading.Lock()

    def run(self, kind: str, script: bytes, more: list[str]) -> bytes | None:
        """Returns an answer as JSON; None if other runs did not end in time. `more` has the swap words, or
        the condition of `exists`."""
        if not self.programs[kind]:
            told = f"./{NEEDED[kind]} is not built. Run it once, and start this page again."
            return json.dumps({"words": [told]}).encode()
        if not self.turn.acquire(timeout=WAIT_SECONDS):
            return None
        try:
            words = [os.path.join(HERE, "answer.py"), kind, self.programs[kind], *more]
            return self.limited(script, [sys.executable, "-B", *words])
        finally:
            self.turn.release()

    def limited(self, script: bytes, words: list[str]) -> bytes:
        limits = f"ulimit -S -v {RUN_BYTES >> 10}; ulimit -t {RUN_SECONDS}; exec \"$@\""
        with subprocess.Popen(["sh", "-c", limits, "sh", *words], stdin=subprocess.PIPE,
                              stdout=subprocess.PIPE,
                              stderr=subprocess.DEVNULL, start_new_session=True,
                              env=self.environment) as process:
            ender = threading.Timer(RUN_SECONDS, os.killpg, (process.pid, signal.SIGKILL))
            ender.start()
            try:
                assert process.stdin is not None and process.stdout is not None
                feed(process.stdin, script)
                said = process.stdout.read(MOST_ANSWER + 1)
            finally:
                ender.cancel()
                if process.poll() is None and len(said) > MOST_ANSWER:
                    os.killpg(process.pid, signal.SIGKILL)
        if process.returncode == 0 and len(said) <= MOST_ANSWER:
            return said
        told = (f"the run was ended: a run here has {RUN_SECONDS} seconds and {RUN_BYTES >> 20} MiB; "
                f"./shmview --steps has no such limit")
        return json.dumps({"line": 0, "column": 0, "length": 0, "words": [told]}).encode()


def feed(stream: Any, data: Any) -> None:
    """The run reads all of it before it writes; one that was ended reads no more."""
    try:
        with stream:
            stream.write(data)
    except OSError:
        pass


class Handler(BaseHTTPRequestHandler):
    server: Server
    timeout = IDLE_SECONDS
    server_version, sys_version = "shmview", ""

    def log_message(self, *_words: Any) -> None:
        pass

    def reply(self, status: int, body: bytes = b"", kind: str = "text/plain; charset=utf-8") -> None:
        self.send_response(status)
        for name, value in {**HEADERS, "Content-Type": kind, "Content-Length": str(len(body)),
                            "Connection": "close"}.items():
            self.send_header(name, value)
        self.end_headers()
        self.wfile.write(body)

    def is_allowed(self, path: str) -> bool:
        """A request for this path, from this page. A wrong token, host name or origin is refused."""
        host = f"127.0.0.1:{self.server.server_port}"
        wanted = f"/{self.server.token}{path}".encode()
        origin = self.headers.get("Origin", "http://" + host)
        is_ours = self.headers.get("Host") == host and origin == "http://" + host
        return is_ours and hmac.compare_digest(self.path.encode("latin-1", "replace"), wanted)

    def do_GET(self) -> None:
        if self.is_allowed("/"):
            self.reply(200, self.server.page, "text/html; charset=utf-8")
        else:
            self.reply(404)

    def do_POST(self) -> None:
        kind = next((it for it in (*NEEDED, "page") if self.is_allowed("/" + it)), "")
        if not kind:
            self.reply(404)
            return
        length = self.headers.get("Content-Length", "")
        if not re.fullmatch("[0-9]{1,18}", length) or "Transfer-Encoding" in self.headers:
            self.reply(411)
        elif int(length) > MOST_BYTES:
            self.reply(413)
        else:
            self.answer(self.rfile.read(int(length)), kind)

    def answer(self, body: bytes, kind: str) -> None:
        try:
            asked = json.loads(body)
            script = asked["script"].encode("utf-8", "surrogatepass")
            swaps, step, condition = asked["swap"], asked.get("step", 0), asked.get("condition", "")
            is_right = (isinstance(step, int) and 1 <= len(swaps) <= 8 and all(map(SWAP.fullmatch, swaps))
                        and len(condition.encode("ascii")) <= MOST_CONDITION and "\0" not in condition)
        except (ValueError, KeyError, TypeError, AttributeError, RecursionError):
            is_right = False
        if not is_right:
            self.reply(400)
            return
        runner = self.server.runner
        said = runner.run("run" if kind == "page" else kind, script,
                          [condition] if kind == "exists" else swaps)
        if said is None:
            self.reply(503)
        elif kind != "page":
            self.reply(200, said, "application/json")
        else:
            self.save(json.loads(said), step)

    def save(self, said: Any, step: Any) -> None:
        if "record" in said:
            self.reply(200, filled(said["record"], {**said["told"], "opened": step}).encode(),
                       "text/html; charset=utf-8")
        else:
            self.reply(409)


class Server(ThreadingHTTPServer):
    daemon_threads = True
    request_queue_size = 128

    def __init__(self, port: Any, runner: Any, page: Any) -> None:
        self.runner, self.page, self.token = runner, page.encode(), secrets.token_urlsafe(24)
        self.places = threading.Semaphore(MOST_AT_ONCE)
        super().__init__(("127.0.0.1", port), Handler)

    def process_request(self, request: Any, client_address: Any) -> None:
        if self.places.acquire(blocking=False):
            super().process_request(request, client_address)
            return
        try:
            request.sendall(b"HTTP/1.0 503 Service Unavailable\r\nContent-Length: 0\r\nConnection: close\r\n"
                            b"\r\n")
        except OSError:
            pass
        self.shutdown_request(request)

    def process_request_thread(self, request: Any, client_address: Any) -> None:
        try:
            super().process_request_thread(request, client_address)
        finally:
            self.places.release()

    def handle_error(self, _request: Any, _client_address: Any) -> None:
        """A client that disconnected or was too slow is not an error of the server."""


def served_page(begun: Any, choices: Any) -> Any:
    """The page with its editor, its examples and its lessons."""
    editor = Path(os.path.join(HERE, "editor.html")).read_text("utf-8")
    data = json.dumps({**choices, **begun}).replace("<", "\\u003c")
    return filled("", told_of("")).replace("</body>", editor.replace("@CHOICES@", data) + "</body>")


def main(program: str, checker: str, shmsim: str, packages: Any, examples: Any, tour: Any, port: Any,
         path: str, *swaps: Any) -> Any:
    choices = {"examples": examples_of(examples), "lessons": lessons_of(tour)}
    named = {it["name"]: it for it in choices["examples"]}
    shown = [named[it["example"]]
             for it in choices["lessons"] if it["example"] in named] + choices["examples"]
    first = shown[0] if shown else {"script": "limits 65536 16 64 4 1\nprocess 1 1 1\n", "swap": ["ram:64"]}
    begun = opened(path) if path else {key: it for key, it in first.items() if key != "name"}
    if swaps:
        begun["swap"] = swaps
    try:
        programs = {"run": program, "orders": checker, "exists": checker, "threads": shmsim}
        server = Server(int(port), Runner(programs, packages), served_page(begun, choices))
    except OSError as error:
        print(f"shmview: port {port} of 127.0.0.1 is not free: {error.strerror}", file=sys.stderr)
        return 3
    address = f"http://127.0.0.1:{server.server_port}/{server.token}/"
    print(f"shmview: {address} shows the page, until Ctrl-C", flush=True)
    if os.environ.get("DISPLAY") or os.environ.get("WAYLAND_DISPLAY"):
        webbrowser.open(address)
    try:
        server.serve_forever()
    except KeyboardInterrupt:
        print()
    return 0


if __name__ == "__main__":
    try:
        sys.exit(main(*sys.argv[1:]))
    except OSError as error:
        print(f"shmview: {error.filename or 'the output'}: {error.strerror}", file=sys.stderr)
        sys.exit(3)
