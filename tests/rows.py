"""Rows of text over the built program: each case gives it feeds and script lines, and says what it has to answer.

tests/logs.txt names logs, and tests/scripts.txt has the cases; the top of each says how it is written. The frames of the logs are spelled
here, from docs/formats.md, with nothing of the program's code: so this is also a second reading of the format.

usage: rows.py PROGRAM    ends with 1 where a case differs, and names each that does
"""
import json
import pathlib
import re
import subprocess
import sys
import tempfile
import threading

HERE = pathlib.Path(__file__).resolve().parent
OPERATIONS = {"insert": 1, "update": 2, "delete": 3}
# A program that takes longer over one case is ended.
SECONDS = 20


class BadRow(Exception):
    """A line of the text files that is not written as their tops say."""


# --- The formats of docs/formats.md.


def number(value, size, signed=False):
    return value.to_bytes(size, "big", signed=signed)


def counted(content, size):
    """The bytes with their length before them."""
    return number(len(content), size) + content


def key_part(part):
    """A key part of a change."""
    if isinstance(part, str):
        return b"\x02" + counted(part.encode(), 4)
    return b"\x01" + number(part, 8, signed=True)


def key_bytes(table, parts):
    """A key as its order sees it: the table, then each part, numbers with their top bit flipped and texts closed by 00 01."""
    spelled = number(table, 4)
    for part in parts:
        if isinstance(part, str):
            spelled += part.encode().replace(b"\x00", b"\x00\xff") + b"\x00\x01"
        else:
            spelled += number(part + 2**63, 8)
    return spelled


def value_bytes(value):
    """A value: null, true, 10 and "x" as in JSON; {"bytes": "00ff"}; {"struct": {"1": 5}}."""
    if value is None:
        return b"\x00"
    if isinstance(value, bool):
        return b"\x01" + number(value, 1)
    if isinstance(value, int):
        return b"\x02" + number(value, 8, signed=True)
    if isinstance(value, str):
        return b"\x03" + counted(value.encode(), 4)
    ((kind, content),) = value.items()
    if kind == "bytes":
        return b"\x04" + counted(bytes.fromhex(content), 4)
    fields = [number(int(field), 2) + value_bytes(inner) for field, inner in content.items()]
    return b"\x05" + number(len(fields), 2) + b"".join(fields)


def frame(kind, body):
    return number(kind, 1) + counted(body, 4)


def header_frame(stream, low, high):
    body = b"LTLOG1" + number(stream, 4) + counted(low, 2)
    return frame(1, body + (b"\x00" if high is None else b"\x01" + counted(high, 2)))


def change_frame(operation, ts, table, version, key, columns):
    body = number(ts, 8) + number(table, 4) + number(version, 4) + number(OPERATIONS[operation], 1)
    body += number(len(key), 1) + b"".join(map(key_part, key))
    body += number(len(columns), 2) + b"".join(number(column, 2) + value_bytes(value) for column, value in columns)
    return frame(2, body)


# --- tests/logs.txt.

HEADER = re.compile(r"header of stream (\d+)(?: from (\d+) /(.*?))?(?: below (\d+) /(.*))?")
CHANGE = re.compile(r"(insert|update|delete) at (\d+) of (?:table (\d+) )?(?:version (\d+) )?key (.*)")
COLUMN = re.compile(r"[,:] (\d+) = ")
DECODER = json.JSONDecoder()


def key_of(text):
    """A key's parts, as in a JSON array without its brackets."""
    return json.loads(f"[{text}]")


def change_of(text):
    """A key's parts, and columns with their values: `1, "eu": 1 = 10, 2 = "x"`."""
    part, at = DECODER.raw_decode(text)
    key, columns = [part], []
    while text.startswith(", ", at):
        part, at = DECODER.raw_decode(text, at + 2)
        key.append(part)
    while at < len(text):
        column = COLUMN.match(text, at)
        if not column or (text[at] == ":") != (columns == []):
            raise BadRow(f"no column: {text[at:]}")
        value, at = DECODER.raw_decode(text, column.end())
        columns.append((int(column[1]), value))
    return key, columns


def record_bytes(line):
    """The bytes that a line of a log stands for."""
    if match := HEADER.fullmatch(line):
        stream, low_table, low, high_table, high = match.groups()
        low = key_bytes(int(low_table), key_of(low)) if low_table else b""
        return header_frame(int(stream), low, key_bytes(int(high_table), key_of(high)) if high_table else None)
    if match := CHANGE.fullmatch(line):
        operation, ts, table, version, rest = match.groups()
        return change_frame(operation, int(ts), int(table or 1), int(version or 1), *change_of(rest))
    if match := re.fullmatch(r"checkpoint (\d+)", line):
        return frame(3, number(int(match[1]), 8))
    if match := re.fullmatch(r"bytes ([0-9a-f ]+)", line):
        return bytes.fromhex(match[1])
    if match := re.fullmatch(r"(first|last) (\d+) bytes of (.*)", line):
        end, count, whole = match[1], int(match[2]), record_bytes(match[3])
        return whole[:count] if end == "first" else whole[-count:]
    raise BadRow(f"no record: {line}")


def lines_of(name):
    """The lines of a text file that are neither empty nor notes, each with its number."""
    for at, line in enumerate((HERE / name).read_text(encoding="utf-8").splitlines(), 1):
        if line and not line.startswith("#"):
            yield at, line


def read_logs():
    """The bytes of each log, by its name."""
    logs, name = {}, None
    for at, line in lines_of("logs.txt"):
        try:
            if line.startswith("log "):
                name = line.removeprefix("log ")
                if name in logs:
                    raise BadRow(f"a second log {name}")
                logs[name] = b""
            else:
                logs[name] += record_bytes(line.strip())
        except (BadRow, KeyError, ValueError, OverflowError) as error:
            sys.exit(f"rows: logs.txt:{at}: {error}")
    return logs


# --- tests/scripts.txt.


class Step:
    """A line of the script and what it has to be answered, or a feed's number and the log that it grows by."""

    def __init__(self, text, grows=None):
        self.text = text
        self.grows = grows
        self.wanted = []


class Case:
    def __init__(self, title):
        self.title = title
        self.feeds = []
        self.steps = []
        # what the program has to say by itself
        self.alone = []
        self.status = 0

    def wants(self, line):
        if not self.steps:
            self.alone.append(line)
        elif self.steps[-1].grows is None:
            self.steps[-1].wanted.append(line)
        else:
            raise BadRow("a feed that grows is answered nothing")

    def logs(self):
        return [log for _, log in self.feeds] + [step.text for step in self.steps if step.grows is not None]


def add_line(case, line, texts):
    """Adds a line of scripts.txt to its case."""
    if match := re.fullmatch(r"feed\.(\d+)(?: to feed\.(\d+))? is (.*)", line):
        case.feeds += [(n, match[3]) for n in range(int(match[1]), int(match[2] or match[1]) + 1)]
    elif match := re.fullmatch(r"feed\.(\d+) grows by (.*)", line):
        case.steps.append(Step(match[2], grows=int(match[1])))
    elif match := re.fullmatch(r"ends with (\d+)", line):
        case.status = int(match[1])
    elif line.startswith("> "):
        line = line.removeprefix("> ")
        case.steps.append(Step(texts.get(line, line)))
    else:
        case.wants(line)


def read_cases(logs):
    cases, texts = [], {}
    for at, line in lines_of("scripts.txt"):
        try:
            if match := re.fullmatch(r"text (\S+) is (.*)", line):
                texts[match[1]] = match[2]
            elif line.startswith("== "):
                cases.append(Case(line.removeprefix("== ")))
            elif cases:
                add_line(cases[-1], line, texts)
                for log in cases[-1].logs():
                    if log not in logs:
                        raise BadRow(f"no log {log}")
            else:
                raise BadRow("no case begins here")
        except BadRow as error:
            sys.exit(f"rows: scripts.txt:{at}: {error}")
    return cases


# --- The run of a case.


def text_of(line):
    return line.decode("utf-8", "backslashreplace").removesuffix("\n")


def reply_from(out):
    """The lines up to the one that ends a reply, or to the end."""
    lines = []
    for line in out:
        lines.append(text_of(line))
        if lines[-1].startswith(("ok", "refused", "stopped")):
            break
    return lines


def differences(case, program, logs, folder):
    """Where the case is answered otherwise than it has to be, in words; and whether the program had to be killed."""
    for feed, log in case.feeds:
        (folder / f"feed.{feed}").write_bytes(logs[log])
    running = subprocess.Popen([program, "run"], cwd=folder, stdin=subprocess.PIPE, stdout=subprocess.PIPE)
    timer = threading.Timer(SECONDS, running.kill)
    timer.start()
    found = []
    try:
        for step in case.steps:
            take_step(step, running, logs, folder, found)
        close(running.stdin)
        found += compared("the end of the script", case.alone, [text_of(line) for line in running.stdout])
        status = running.wait()
        if status != case.status:
            found.append(f"status {status}, and not {case.status}")
        return found, not timer.is_alive()
    finally:
        timer.cancel()
        running.kill()
        running.wait()
        running.stdout.close()


def take_step(step, running, logs, folder, found):
    """Lets a feed grow, or sends a line and adds to what was found where it is answered otherwise."""
    if step.grows is not None:
        with open(folder / f"feed.{step.grows}", "ab") as feed:
            feed.write(logs[step.text])
        return
    try:
        running.stdin.write(step.text.encode() + b"\n")
        running.stdin.flush()
    except BrokenPipeError:
        pass
    if step.wanted:
        found += compared(f"'{step.text}'", step.wanted, reply_from(running.stdout))


def close(pipe):
    try:
        pipe.close()
    except BrokenPipeError:
        pass


def compared(where, wanted, answered):
    if wanted == answered:
        return []
    lines = ["answered to " + where, *shown(answered), "wanted", *shown(wanted)]
    return ["\n    ".join(lines)]


def shown(lines):
    return [f"  {line}" for line in lines] or ["  nothing"]


def main():
    if len(sys.argv) != 2:
        sys.exit(__doc__)
    program = pathlib.Path(sys.argv[1]).resolve()
    if not program.is_file():
        sys.exit(f"rows: there is no program {program}")
    logs = read_logs()
    cases = read_cases(logs)
    differ = 0
    for case in cases:
        with tempfile.TemporaryDirectory(prefix="rows-") as folder:
            found, is_late = differences(case, program, logs, pathlib.Path(folder))
        if found:
            differ += 1
            print(f"rows: {case.title}:")
            for difference in found:
                print(f"    {difference}")
        if is_late:
            sys.exit(f"rows: {case.title}: the program did not end within {SECONDS} seconds; the further cases are not tried")
    rows = sum(bool(case.alone) + sum(bool(step.wanted) for step in case.steps) for case in cases)
    print(f"rows: {len(cases)} cases with {rows} rows, of which {differ} cases differ")
    sys.exit(1 if differ else 0)


if __name__ == "__main__":
    main()
