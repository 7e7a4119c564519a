#!/usr/bin/env python3
"""Runs a program with a terminal as its standard error: on_terminal.py [--until PATTERN] FILE PROGRAM WORDS... What it
writes there is kept in FILE. Its standard input and output are those of this script, and so is its exit status. Once
what it wrote there has the regular expression PATTERN in it the program is ended.
"""
import os
import pty
import re
import subprocess
import sys
import tty

words = sys.argv[1:]
until = words[1] if words[0] == "--until" else None
file, *command = words if until is None else words[2:]
terminal, screen = pty.openpty()
tty.setraw(screen)
written = b""
with open(file, "wb") as kept:
    run = subprocess.Popen(command, stderr=screen)
    os.close(screen)
    while True:
        try:
            text = os.read(terminal, 65536)
        except OSError:
            break
        if not text:
            break
        kept.write(text)
        written += text
        if until is not None and re.search(until.encode(), written):
            run.terminate()
            break
sys.exit(run.wait())
