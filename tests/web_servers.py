"""Web servers that tests of mxf_fetch ask: nginx in a folder of its own, and one that misbehaves as its paths say."""
from __future__ import annotations

import contextlib
import dataclasses
import http.server
import os
import re
import socket
import subprocess
import sys
import threading
import time
from collections.abc import Iterator
from pathlib import Path

CONFIGURATION = """
daemon off;
{user}
worker_processes 1;
pid {folder}/nginx.pid;
error_log {folder}/error.log;
events {{ worker_connections 64; }}
http {{
  log_format told '$status $body_bytes_sent "$http_range" "$http_authorization" "$uri"';
  access_log {folder}/access.log told;
  client_body_temp_path {folder}/body;
  proxy_temp_path {folder}/proxy;
  fastcgi_temp_path {folder}/fastcgi;
  uwsgi_temp_path {folder}/uwsgi;
  scgi_temp_path {folder}/scgi;
  server {{
    listen 127.0.0.1:{port};
    root {root};
    location / {{ }}
    location /slow/ {{ alias {root}/; limit_rate {rate}; }}
    location /locked/ {{ alias {root}/; auth_basic "tests"; auth_basic_user_file {folder}/users; }}
  }}
}}
"""


@dataclasses.dataclass(frozen=True)
class Nginx:
    """A running nginx, by the port of the loopback that it has, and its folder."""

    port: int
    folder: Path

    def url(self, path: str) -> str:
        """The URL of a path."""
        return f"http://127.0.0.1:{self.port}/{path}"

    def logged(self) -> list[list[str]]:
        """What was asked since the last time that this was: the status, the bytes of the body, the range and the
        authorization of each request. nginx writes a line after it has answered."""
        time.sleep(0.05)
        log = self.folder / "access.log"
        lines = log.read_text().splitlines()
        log.write_text("")
        return [[*line.split()[:2], *re.findall('"([^"]*)"', line)] for line in lines]


def free_port() -> int:
    """A port of the loopback that nobody has."""
    with socket.create_server(("127.0.0.1", 0)) as taken:
        return int(taken.getsockname()[1])


@contextlib.contextmanager
def nginx(root: Path, folder: Path, rate: str = "300k") -> Iterator[Nginx]:
    """nginx, which serves the files of a folder until the block ends."""
    folder.mkdir()
    port = free_port()
    (folder / "users").write_text("operator:{PLAIN}s3cret/word\n")
    configuration = folder / "nginx.conf"
    # What root starts would run as somebody who may not read the folder.
    user = "user root;" if os.geteuid() == 0 else ""
    configuration.write_text(CONFIGURATION.format(user=user, folder=folder, root=root, port=port, rate=rate))
    server = subprocess.Popen(["nginx", "-p", folder, "-c", configuration], stderr=subprocess.DEVNULL)
    try:
        for _ in range(200):
            with contextlib.suppress(OSError), socket.create_connection(("127.0.0.1", port)):
                break
            time.sleep(0.05)
        yield Nginx(port, folder)
    finally:
        server.terminate()
        server.wait()


class Misbehaving(http.server.BaseHTTPRequestHandler):
    """Answers by the first part of a path. What comes behind that tells apart who asks, so that each may have its own count of
    requests."""

    protocol_version = "HTTP/1.1"
    data = b""
    asked: dict[str, int] = {}
    headers_seen: list[tuple[str, dict[str, str]]] = []
    lock = threading.Lock()

    def log_message(self, format: str, *words: object) -> None:
        """Nobody is told."""

    def do_GET(self) -> None:
        """Answers."""
        with self.lock:
            count = self.asked[self.path] = self.asked.get(self.path, 0) + 1
            self.headers_seen.append((self.path, dict(self.headers)))
        found = re.fullmatch(r"bytes=(\d+)-(\d+)", self.headers.get("Range", ""))
        start, end = (int(found[1]), min(int(found[2]) + 1, len(self.data))) if found else (0, len(self.data))
        how = self.path.split("/")[1].partition("?")[0].replace("-", "_")
        with contextlib.suppress(BrokenPipeError, ConnectionResetError):
            getattr(self, f"answer_{how}")(count, start, end)

    def send(self, status: int, body: bytes, headers: dict[str, str], length: int | None = None) -> None:
        """Sends an answer, whose length may be told otherwise."""
        self.send_response(status)
        for name, value in headers.items():
            self.send_header(name, value)
        self.send_header("Content-Length", str(len(body) if length is None else length))
        self.end_headers()
        self.wfile.write(body)
        if length is not None:
            self.close_connection = True

    def send_range(self, start: int, end: int, **more: str) -> None:
        """Sends a range as it should be."""
        headers = {"Content-Range": f"bytes {start}-{end - 1}/{len(self.data)}", **more}
        self.send(206, self.data[start:end], headers)

    def answer_right(self, count: int, start: int, end: int) -> None:
        """As it should be."""
        self.send_range(start, end, ETag='"one"')

    def answer_no_ranges(self, count: int, start: int, end: int) -> None:
        """The whole in place of the range."""
        self.send(200, self.data, {})

    def answer_small(self, count: int, start: int, end: int) -> None:
        """The whole of something small."""
        self.send(200, self.data[:40000], {})

    def answer_other_range(self, count: int, start: int, end: int) -> None:
        """Another range than was asked for."""
        self.send(206, self.data[start:end], {"Content-Range": f"bytes {start + 1}-{end}/{len(self.data)}"})

    def answer_no_content_range(self, count: int, start: int, end: int) -> None:
        """A range of which nobody knows where it lies."""
        self.send(206, self.data[start:end], {})

    def answer_ends_early(self, count: int, start: int, end: int) -> None:
        """A third of what is announced."""
        headers = {"Content-Range": f"bytes {start}-{end - 1}/{len(self.data)}", "ETag": '"one"'}
        self.send(206, self.data[start : start + max(1, (end - start) // 3)], headers, end - start)

    def answer_shorter(self, count: int, start: int, end: int) -> None:
        """A part of the range, as a server may."""
        self.send_range(start, start + max(1, (end - start) // 2))

    def answer_busy(self, count: int, start: int, end: int) -> None:
        """Not available twice."""
        self.send(503, b"busy", {}) if count <= 2 else self.send_range(start, end)

    def answer_broken(self, count: int, start: int, end: int) -> None:
        """Never available."""
        self.send(503, b"busy", {})

    def answer_later(self, count: int, start: int, end: int) -> None:
        """Too many requests, and when to come again."""
        self.send(429, b"", {"Retry-After": "1"}) if count == 1 else self.send_range(start, end)

    def answer_changes(self, count: int, start: int, end: int) -> None:
        """Another ETag from the second request on."""
        self.send_range(start, end, ETag='"one"' if count == 1 else '"two"')

    def answer_matches(self, count: int, start: int, end: int) -> None:
        """A server that looks at If-Match, and has another state from the second request on."""
        if self.headers.get("If-Match", '"two"') == '"two"' or count == 1:
            self.send_range(start, end, ETag='"one"' if count == 1 else '"two"')
        else:
            self.send(412, b"", {})

    def answer_modified(self, count: int, start: int, end: int) -> None:
        """A weak ETag that stays, and another time of the last change."""
        modified = f"Mon, 0{min(count, 2)} Jun 2026 10:00:00 GMT"
        self.send_range(start, end, **{"ETag": 'W/"one"', "Last-Modified": modified})

    def answer_grows(self, count: int, start: int, end: int) -> None:
        """Another size from the second request on."""
        size = len(self.data) + count - 1
        self.send(206, self.data[start:end], {"Content-Range": f"bytes {start}-{end - 1}/{size}"})

    def answer_redirect(self, count: int, start: int, end: int) -> None:
        """Leads to this server, by another name of the host."""
        self.send(302, b"", {"Location": f"http://localhost:{self.server.server_address[1]}/right/redirected"})

    def answer_near(self, count: int, start: int, end: int) -> None:
        """Leads to the same host."""
        self.send(307, b"", {"Location": "/right/near"})

    def answer_circle(self, count: int, start: int, end: int) -> None:
        """Leads to itself."""
        self.send(302, b"", {"Location": self.path})

    def answer_astray(self, count: int, start: int, end: int) -> None:
        """Leads to what isn't HTTP."""
        self.send(302, b"", {"Location": "file:///etc/passwd"})

    def answer_slow(self, count: int, start: int, end: int) -> None:
        """Comes in small parts."""
        headers = {"Content-Range": f"bytes {start}-{end - 1}/{len(self.data)}", "Content-Length": str(end - start)}
        self.send_response(206)
        for name, value in headers.items():
            self.send_header(name, value)
        self.end_headers()
        for at in range(start, end, 16384):
            self.wfile.write(self.data[at : min(at + 16384, end)])
            time.sleep(0.02)

    def answer_stuck(self, count: int, start: int, end: int) -> None:
        """Says nothing for a while, the first time."""
        if count == 1:
            time.sleep(3)
        self.send_range(start, end)

    def answer_vast(self, count: int, start: int, end: int) -> None:
        """A recording of 2^63 bytes."""
        self.send(206, self.data[start:end], {"Content-Range": f"bytes {start}-{end - 1}/{2**63}"})

    def answer_zipped(self, count: int, start: int, end: int) -> None:
        """Bytes in another coding."""
        headers = {"Content-Range": f"bytes {start}-{end - 1}/{len(self.data)}", "Content-Encoding": "gzip"}
        self.send(206, self.data[start:end], headers)

    def answer_empty(self, count: int, start: int, end: int) -> None:
        """Nothing is there."""
        self.send(416, b"", {"Content-Range": "bytes */0"})

    def answer_status(self, count: int, start: int, end: int) -> None:
        """The status that the path says."""
        self.send(int(self.path.split("/")[2].partition("?")[0]), b"", {})


class Server(http.server.ThreadingHTTPServer):
    """A server that says nothing of who hangs up."""

    def handle_error(self, request: object, address: object) -> None:
        """Nobody is told."""


@contextlib.contextmanager
def misbehaving(data: bytes) -> Iterator[int]:
    """The server that misbehaves with these bytes, until the block ends: its port."""
    Misbehaving.data = data
    server = Server(("127.0.0.1", 0), Misbehaving)
    thread = threading.Thread(target=server.serve_forever, daemon=True)
    thread.start()
    try:
        yield server.server_port
    finally:
        server.shutdown()
        thread.join()
        server.server_close()


def main() -> None:
    """Serves the files of ROOT by nginx, until standard input ends: web_servers.py ROOT NEW_FOLDER. Prints the address."""
    with nginx(Path(sys.argv[1]), Path(sys.argv[2])) as server:
        print(server.url(""), flush=True)
        sys.stdin.read()


if __name__ == "__main__":
    main()
