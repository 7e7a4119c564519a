"""What mxf_fetch says and keeps where something is wrong: with its words, its folder, a server, a command or a file."""
from __future__ import annotations

import fcntl
import json
import os
import shutil
import subprocess
import sys
import time
from pathlib import Path
from typing import Any

from web_servers import Nginx, free_port


def try_faults(tests: Any, server: Nginx) -> None:
    """Faults of the words and of the folder."""
    where = server.url("op1a_jpeg2000.mxf")
    tests.fails("a file that isn't there", 3, "the server answers 404 Not Found", "look", server.url("none.mxf"))
    tests.fails("nobody listens", 3, "Connection refused", "look", f"http://127.0.0.1:{free_port()}/x")
    tests.fails(
        "no such host", 3, "read fault: http://no.such.host.invalid/x: ", "look", "http://no.such.host.invalid/x"
    )
    tests.fails("a URL that is none", 2, "bad URL: ", "look", "http://[::1/x")
    for url in ("http://127.0.0.1:99999/x", "http://a..b/x"):
        tests.fails(
            f"no request can be made of {url}", 3, f"read fault: {url}: no request can be made", "look", f"{url}?k=v"
        )
    tests.fails("whole without a folder", 2, "--into", "whole", where)
    tests.fails("no command", 2, "usage: mxf_fetch", where)
    tests.fails("a bad timecode", 2, "an edit unit is", "units", where, "--from", "x", "--to", "1")
    tests.fails(
        "no such units", 2, "no unit at 09:00:00:00\n", "units", where, "--from", "09:00:00:00", "--to", "09:00:00:01"
    )
    tests.fails("no program mxf_tool", 69, "/none/mxf_tool can't be run", "look", where, MXF_TOOL="/none/mxf_tool")
    tests.fails(
        "more bytes than may be got",
        1,
        "65536 bytes are wanted so far, and --most is 1000",
        "look",
        where,
        "--most",
        1000,
    )
    blocked = tests.folder / "blocked"
    blocked.mkdir()
    (blocked / "requests.py").write_text("raise ImportError('no requests')\n")
    tests.fails("no library for http", 69, "python3-requests", "look", where, PYTHONPATH=str(blocked))
    try_folders(tests, server, where)


def try_folders(tests: Any, server: Nginx, where: str) -> None:
    """Faults of a folder, and of standard output."""
    folder = tests.folder / "faults"
    ran = tests.fetch("look", where, "--into", folder)
    tests.fails(
        "a folder of another recording", 2, f"it has ranges of {where}", "look", server.url("M.bin"), "--into", folder
    )
    opened = os.open(folder, os.O_RDONLY)
    fcntl.flock(opened, fcntl.LOCK_EX)
    tests.fails("a folder that another run has", 6, "another run of mxf_fetch has it", "look", where, "--into", folder)
    os.close(opened)
    (folder / "fetched.json").unlink()
    tests.fails("ranges of whom nobody knows", 2, "no fetched.json that says of what", "look", where, "--into", folder)
    (folder / "fetched.json").write_text("{")
    tests.fails(
        "a state that isn't one", 3, "fetched.json: it isn't as mxf_fetch writes it", "look", where, "--into", folder
    )
    tests.fails("a folder that can't be made", 6, "write fault: ", "look", where, "--into", tests.folder / "spy/x")
    with open("/dev/full", "w", encoding="utf-8") as full:
        words = [sys.executable, tests.fetch_program, "look", where]
        full_run = subprocess.run(
            words, stdout=full, stderr=subprocess.PIPE, env={**os.environ, "MXF_TOOL": tests.tool}
        )
    tests.verdict("an answer that can't be written", full_run.returncode == 6, full_run)
    tests.verdict("a look before", ran.status == 0, ran)


def try_misbehaving(tests: Any, base: str, data: bytes, seen: Any) -> None:
    """Servers that misbehave."""
    right = tests.folder / "right.bin"
    right.write_bytes(data)
    wanted = tests.fetch("look", right)

    def same(name: str, path: str, *words: object) -> Any:
        """A look that says what one at the file says."""
        ran = tests.fetch("look", f"{base}/{path}", *words)
        tests.verdict(
            name, ran.out.rpartition("looked")[0] == wanted.out.rpartition("looked")[0] and ran.status == 0, ran
        )
        return ran

    same("a server as it should be", "right")
    tests.fails("a server without ranges", 3, "the server gives no ranges", "look", f"{base}/no-ranges")
    ran = tests.fetch("look", f"{base}/small")
    tests.verdict("unless the whole is small", ran.status == 0 and ran.got() == (1, 40000), ran)
    tests.fails("another range", 3, "bytes 0-65535 were asked for, and the server sends", "look", f"{base}/other-range")
    tests.fails("no Content-Range", 3, "and the server sends none", "look", f"{base}/no-content-range")
    try_waits(tests, base, same)
    try_endings(tests, base, data)
    try_changes(tests, base, seen)
    try_redirects(tests, base, seen, same)
    same("an answer in small parts", "slow", "--timeout", 1)
    same("an answer that comes late", "stuck", "--timeout", 1)
    tests.fails("a size of 2^63", 3, f"its size {2**63} is above the greatest", "look", f"{base}/vast")
    tests.fails("another coding", 3, "in the coding gzip", "look", f"{base}/zipped")
    tests.fails("an empty recording", 3, "it is empty", "look", f"{base}/empty")
    for status, said in (
        (401, "401 Unauthorized"),
        (403, "403 Forbidden"),
        (404, "404 Not Found"),
        (416, "416 "),
        (418, "418 "),
    ):
        path = f"{base}/status/{status}"
        tests.fails(
            f"status {status}", 3, f"read fault: {path}: the server answers {said}", "look", f"{path}?key=secret"
        )


def try_waits(tests: Any, base: str, same: Any) -> None:
    """Answers that are shorter, or come later."""
    same("answers that are shorter than the range", "shorter")
    begun = time.monotonic()
    same("503 twice", "busy")
    tests.verdict("is waited for", time.monotonic() - begun > 1.4)
    begun = time.monotonic()
    same("429 with Retry-After", "later")
    tests.verdict("as long as it says", time.monotonic() - begun > 0.9)


def try_changes(tests: Any, base: str, seen: Any) -> None:
    """A recording that is replaced meanwhile."""
    for path in ("changes", "matches", "modified", "grows"):
        folder = tests.folder / path
        tests.fails(
            f"a recording that {path}",
            4,
            f"has changed since {folder} was begun",
            "look",
            f"{base}/{path}",
            "--into",
            folder,
        )
        held = sum(one.stat().st_size for one in folder.glob("*.range"))
        tests.verdict(f"and nothing is mixed: {path}", held == 65536, held)
    tests.fails("without a folder", 4, "has changed since this call was begun", "look", f"{base}/changes/2")
    matches = [headers.get("If-Match") for path, headers in seen.headers_seen if path == "/matches"]
    tests.verdict("If-Match has the ETag", matches[1:] != [] and set(matches[1:]) == {'"one"'}, matches)


def try_endings(tests: Any, base: str, data: bytes) -> None:
    """Answers that end early, of which what came is kept, and a server that is never available."""
    folder = tests.folder / "endings"
    ran = tests.fetch("whole", f"{base}/ends-early", "--into", folder)
    ranges = sorted(folder.glob("*.range"), key=lambda path: int(path.stem))
    whole = b"".join(path.read_bytes() for path in ranges)
    tests.verdict("a body that ends early is gone on with", ran.status == 0 and whole == data, (ran, len(whole)))
    tests.verdict("and nothing comes twice", ran.got()[1] == len(data), ran)
    tests.fails("503 each time", 3, "the server answers 503 Service Unavailable", "look", f"{base}/broken")


def try_redirects(tests: Any, base: str, seen: Any, same: Any) -> None:
    """Redirects, to another host and to the same, in a circle and astray."""
    header = ("--header", "X-Key: hidden", "--header", "Authorization: hidden too")
    same("a redirect to another host", "redirect", *header)
    names = [set(headers) for path, headers in seen.headers_seen if path == "/right/redirected"]
    tests.verdict(
        "doesn't get the headers of the call",
        names != [] and not any(name & {"X-Key", "Authorization"} for name in names),
    )
    same("a redirect to the same host", "near", *header)
    names = [set(headers) for path, headers in seen.headers_seen if path == "/right/near"]
    tests.verdict("gets them", names != [] and all({"X-Key", "Authorization"} <= name for name in names), names)
    tests.fails("redirects in a circle", 3, "the server redirects too often", "look", f"{base}/circle")
    tests.fails("a redirect astray", 3, "no request can be made of this URL", "look", f"{base}/astray")


def try_places(tests: Any, root: Path) -> None:
    """A command that restores, and a file that changes."""
    path = root / "op1a_mpeg2_long_gop.mxf"
    log, restore = tests.folder / "restored", tests.folder / "restore"
    restore.write_text(
        "#!/bin/sh\n"
        f'echo "$2 $3" >>"{log}"\n'
        'if [ "$3" = - ]; then exec tail -c +$(($2 + 1)) "$1"; fi\n'
        'tail -c +$(($2 + 1)) "$1" | head -c $(($3 - $2))\n'
    )
    restore.chmod(0o755)
    where = f"cmd:'{restore}' '{path}'"
    said = tests.asked("describe", f"at:0:{path}")
    folder = tests.folder / "from command"
    ran = tests.fetch("look", where, "--into", folder)
    tests.verdict("look by a command", ran.status == 0 and ran.out.startswith(said), ran)
    calls = [tuple(map(int, line.split())) for line in log.read_text().splitlines()]
    tests.verdict("which is called with the first byte and the end", calls == [(0, 65536)], calls)
    span = ("--from", "00:00:00:01", "--to", "00:00:00:02")
    ran = tests.fetch("units", where, *span, "--into", folder)
    tests.verdict("units by a command, which are there", ran.status == 0 and ran.got() == (0, 0), ran)
    (folder / "fetched.json").unlink()
    ran = tests.fetch("units", where, *span, "--into", folder)
    tests.verdict("its folder may have ranges that somebody put there", ran.status == 0 and ran.got() == (0, 0), ran)
    source = f"range:0:{folder}/0.range"
    ran = tests.fetch("units", "cmd:false", *span, source)
    tests.verdict("sources that are there are asked too", ran.status == 0 and ran.got() == (0, 0), ran)
    try_commands(tests, path, where)
    try_paths(tests, root, path)


def try_commands(tests: Any, path: Path, where: str) -> None:
    """The whole by a command, and commands that do nothing right."""
    whole = tests.folder / "whole by command"
    ran = tests.fetch("whole", where, "--into", whole)
    came = b"".join(one.read_bytes() for one in sorted(whole.glob("*.range")))
    tests.verdict("whole by a command", ran.status == 0 and came == path.read_bytes(), ran)
    tests.fails("a command that fails", 3, "ended with status 7", "look", "cmd:exit 7;")
    tests.fails("a command that prints nothing", 3, "it is empty", "look", "cmd:true")


def try_paths(tests: Any, root: Path, path: Path) -> None:
    """Files that can't be read, or change."""
    tests.fails("a file that isn't there", 3, "/none/x: No such file or directory", "look", "/none/x")
    tests.fails("a folder in place of a file", 3, "read fault: ", "look", root)
    changing, kept = tests.folder / "changing.mxf", tests.folder / "kept"
    shutil.copy(path, changing)
    tests.fetch("look", changing, "--into", kept)
    os.utime(changing, (0, 0))
    (kept / "0.range").write_bytes((kept / "0.range").read_bytes()[:9000])
    tests.fails(
        "a file that has changed", 4, f"{changing} has changed since {kept} was begun", "look", changing, "--into", kept
    )
    state = json.loads((kept / "fetched.json").read_text())
    tests.verdict("fetched.json names the file", state["where"] == str(changing), state)
