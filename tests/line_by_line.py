"""Runs a line program through pipes, a line at a time.

  line_by_line.py [--numbers] PROGRAM FOLDER...

Sends each session of the folders (NAME.in, its output NAME.out) to the program a line at a time, some lines in two parts with
a pause between, and waits for each line's answer before it sends the next: an answer that is not there after ten seconds, or
that comes before its line has ended, is a failure. What follows the last line feed is sent last, and the pipe is closed.
With --numbers the words behind the number of an accepted move, which course names, are left out.
Prints how many sessions passed; exit status 1 at the first that did not."""

import pathlib
import re
import select
import subprocess
import sys
import time


class Wrong(Exception):
    pass


WORD = rb"(none|(count|token|queue|ready|birth) [0-9]+)"
WORDS = re.compile(rb"^0 reads " + WORD + rb" writes " + WORD + rb"$", re.MULTILINE)


def compared(answer):
    return WORDS.sub(b"0", answer) if numbers_only else answer


def ready(process, seconds):
    return select.select([process.stdout], [], [], seconds)[0]


def end_of_answer(line, answers, at):
    """Where the answer to a line ends that begins at answers[at]: what is for people ends with an empty line, each turn of a
    class has two lines; all else has one, and so has every line that is no command."""
    word, *numbers = line.split(b" ")
    if answers[at : at + 1] == [b"?\n"]:
        return at + 1
    if word in (b"view", b"chart", b"help"):
        return answers.index(b"\n", at) + 1
    return at + 2 * len(numbers) if word == b"turns" else at + 1


def receive(process, length):
    """The next bytes, at least so many, up to a line's end."""
    got = b""
    while len(got) < length or not got.endswith(b"\n"):
        if not ready(process, 10):
            raise Wrong(f"no answer, only {got[-200:]!r}")
        part = process.stdout.read(65536)
        if not part:
            raise Wrong(f"the output ended after {got[-200:]!r}")
        got += part
    return got


def converse(process, lines, rest, answers):
    at = 0
    for number, line in enumerate(lines, 1):
        half = len(line) // 2 if number % 50 == 1 else 0
        if half:
            process.stdin.write(line[:half])
            time.sleep(0.002)
            if ready(process, 0):
                raise Wrong(f"line {number} was answered before its end")
        process.stdin.write(line[half:] + b"\n")
        end = end_of_answer(line, answers, at)
        wanted = b"".join(answers[at:end])
        got = compared(receive(process, len(wanted)))
        if got != wanted:
            raise Wrong(f"line {number}: {line[:200]!r} was answered by {got[:2000]!r}")
        at = end
    process.stdin.write(rest)
    process.stdin.close()
    last = compared(process.stdout.read())
    if last != b"".join(answers[at:]):
        raise Wrong(f"at the end: {last[:2000]!r}")
    if process.wait(10) != 0:
        raise Wrong(f"exit status {process.returncode}")


def session(program, path):
    *lines, rest = path.read_bytes().split(b"\n")
    answers = path.with_suffix(".out").read_bytes().splitlines(keepends=True)
    with subprocess.Popen([program], stdin=subprocess.PIPE, stdout=subprocess.PIPE, bufsize=0) as process:
        try:
            converse(process, lines, rest, answers)
        except Exception:
            process.kill()
            raise


numbers_only = sys.argv[1] == "--numbers"
program, *folders = sys.argv[2 if numbers_only else 1 :]
passed = 0
for path in sorted(path for folder in folders for path in pathlib.Path(folder).glob("*.in")):
    try:
        session(program, path)
    except (Wrong, OSError, subprocess.SubprocessError) as wrong:
        print(passed)
        sys.exit(f"{path}: {wrong}")
    passed += 1
print(passed)
