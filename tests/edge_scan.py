"""A scan of many rows: its rows are written while it runs, in pieces of about 64 KiB. Runs in a folder of its own.

usage: edge_scan.py PROGRAM    ends with 1 where something is not as it has to be, and says what
"""
import pathlib
import subprocess
import sys

import rows

PROGRAM = [sys.argv[1], "run"]
ROWS = 10_000
PIECE = 65_536
SCHEMA = ('schema {"table":"t","number":1,"version":1,"key":[["id","int64"]],'
          '"columns":[{"number":1,"name":"a","kind":"text"}]}')
SCRIPT = f"{SCHEMA}\npump 0 {ROWS + 1}\nscan t 1 {ROWS}\n".encode()
# (the longest row)
ROW = f'row [{ROWS},"{"x" * 40}"]\n'
failed = False


def expect(what, is_so):
    global failed
    if not is_so:
        print(f"edge: a scan of many rows: {what}")
        failed = True


def feed():
    """A log with an insert of each key."""
    inserts = (rows.change_frame("insert", at, 1, 1, [at], [(1, "x" * 40)]) for at in range(1, ROWS + 1))
    return rows.header_frame(0, b"", None) + b"".join(inserts) + rows.record_bytes(f"checkpoint {ROWS}")


def writes_of(number):
    """How many calls that write a process has made; none where the system does not say."""
    try:
        said = dict(line.split(": ") for line in pathlib.Path(f"/proc/{number}/io").read_text().splitlines())
        return int(said["syscw"])
    except (OSError, KeyError, ValueError):
        return None


pathlib.Path("feed.0").write_bytes(feed())
pathlib.Path("many_rows").write_bytes(SCRIPT)

# all rows, and then the reply, while the script goes on
program = subprocess.Popen(PROGRAM, stdin=subprocess.PIPE, stdout=subprocess.PIPE)
program.stdin.write(SCRIPT)
program.stdin.flush()
expect("the schema is refused", program.stdout.readline() == b"ok schema t 1\n")
expect("the pump is refused", program.stdout.readline().startswith(f"ok pump 0 records {ROWS + 1} ".encode()))
before = writes_of(program.pid)
wrote = 0
for at in range(1, ROWS + 1):
    line = program.stdout.readline().decode()
    wrote += len(line)
    if line != f'row [{at},"{"x" * 40}"]\n':
        expect(f"row {at} is {line!r}", False)
        break
expect("no reply behind the rows", program.stdout.readline() == f"ok scan {ROWS}\n".encode())
after = writes_of(program.pid)
if before is not None and after is not None:
    # (some of the first pieces may be written before the first count)
    least = wrote // (PIECE + len(ROW)) - 2
    expect(f"{after - before} writes for {wrote} bytes", after - before >= least > 2)
program.stdin.close()
expect(f"status {program.wait(timeout=30)}", program.wait() == 0)

# a reader that closes within the rows
program = subprocess.Popen(PROGRAM, stdin=open("many_rows", "rb"), stdout=subprocess.PIPE)
for _ in range(3):
    program.stdout.readline()
program.stdout.close()
expect(f"a reader that closes: status {program.wait(timeout=30)}, and not 4", program.wait() == 4)
sys.exit(failed)
