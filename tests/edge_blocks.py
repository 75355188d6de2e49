"""The program over pipes that do not block: what is not ready is waited for, for about a second. Runs in a folder with a feed."""
import os
import subprocess
import sys
import time

PROGRAM = [sys.argv[1], "run"]
failed = False


def expect(what, is_so):
    global failed
    if not is_so:
        print(f"edge: {what}")
        failed = True


def pipe(open_end):
    """A pipe, one end of which does not block."""
    ends = os.pipe()
    os.set_blocking(ends[open_end], False)
    return ends


def waited(program):
    """The status, and whether the program ended after about a second."""
    began = time.monotonic()
    status = program.wait(timeout=30)
    return status, 0.5 < time.monotonic() - began < 10


# a script that pauses, and then stops
read, write = pipe(0)
program = subprocess.Popen(PROGRAM, stdin=read, stdout=subprocess.PIPE)
for turn in (1, 2):
    time.sleep(0.1)
    os.write(write, b"status\n")
    while program.stdout.readline() not in (b"ok status\n", b""):
        pass
status, is_timely = waited(program)
expect(f"a script that pauses: status {status}, and not 3", status == 3)
expect("a script that pauses: the fault does not come after about a second", is_timely)
expect("a script that pauses: the last line is another", program.stdout.read() == b"stopped 3 ScriptFault\n")

# a reader that pauses, and one that stops
lines = 5000
for reads in (True, False):
    with open("many", "wb") as script:
        script.write(b"status\n" * lines)
    read, write = pipe(1)
    program = subprocess.Popen(PROGRAM, stdin=open("many", "rb"), stdout=write)
    os.close(write)
    if reads:
        time.sleep(0.3)
        with os.fdopen(read, "rb") as out:
            answered = out.read().count(b"ok status\n")
        expect(f"a reader that pauses: status {program.wait(timeout=30)}", program.wait() == 0)
        expect(f"a reader that pauses: {answered} replies, and not {lines}", answered == lines)
    else:
        status, is_timely = waited(program)
        expect(f"a reader that stops: status {status}, and not 4", status == 4)
        expect("a reader that stops: the fault does not come after about a second", is_timely)
sys.exit(failed)
