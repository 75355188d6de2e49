"""Runs the blocks of README.md and docs/guide.md in their order, and compares what they print. A block that is not known here is a fault."""
import pathlib
import re
import shutil
import struct
import subprocess
import sys
import tempfile

ROOT = pathlib.Path.cwd()
PROGRAM = pathlib.Path(sys.argv[1]).resolve()
EXAMPLE = ROOT / "examples" / "postgres"
faults = []


def blocks(page):
    return re.findall(r"^```[a-z]*\n(.*?)^```$", (ROOT / page).read_text(), re.M | re.S)


def say(what):
    faults.append(what)


def same(what, found, shown):
    if found != shown:
        say(f"{what}: the page shows\n{shown}and not\n{found}")


def run(folder, script):
    done = subprocess.run([PROGRAM, "run"], cwd=folder, input=script, capture_output=True, text=True, timeout=60)
    if done.returncode != 0:
        say(f"status {done.returncode} after\n{script}")
    return done.stdout


def columns(block):
    """Lines on the left, what is answered on the right, two spaces or more between them."""
    left, right = [], []
    for line in block.splitlines():
        parts = re.fullmatch(r"(\S.*?)?\s{2,}(\S.*)", line)
        if parts is None:
            left.append(line)
            continue
        if parts[1]:
            left.append(parts[1])
        right.append(parts[2])
    return "\n".join(left) + "\n", "\n".join(right) + "\n"


def frame(kind, body):
    return struct.pack(">BI", kind, len(body)) + body


def key(number):
    return b"\x01" + struct.pack(">q", number)


def growth():
    """What the guide appends: key 2 gets the total 900 at 2, key 1 goes at 3, a checkpoint at 3."""
    update = struct.pack(">QIIBB", 2, 1, 1, 2, 1) + key(2) + struct.pack(">HHBq", 1, 2, 2, 900)
    delete = struct.pack(">QIIBB", 3, 1, 1, 3, 1) + key(1) + struct.pack(">H", 0)
    return frame(2, update) + frame(2, delete) + frame(3, struct.pack(">Q", 3))


def plain(source):
    """A source with the states of the objects written as README writes them, on one line."""
    text = " ".join((ROOT / source).read_text().split())
    for moment, word in (("old", "before"), ("new", "after")):
        text = re.sub(rf"\([A-Z]\.state (\w+)\.{moment}\)", rf"\1.{word}", text)
        text = re.sub(rf"\((?:world|outside)_of (?:\w+\.{word} ?)+\)", word, text)
    return text.replace("(map (λ w. string_bytes w) words.now)", "words")


def readme(room):
    first, replies, *clauses = blocks("README.md")
    same("README: the first run", first, "./first-run\n")
    lines, answers = columns(replies)
    lines = lines.splitlines()
    script = [line for line in (ROOT / "examples/one_stream/script").read_text().splitlines() if line and not line.startswith("#")]
    if not script[0].startswith(lines[0].split(",..}")[0]) or script[1:5] != lines[1:]:
        say("README: the script is not the front of examples/one_stream/script")
    shutil.copy(ROOT / "examples/one_stream/feed.0", room)
    same("README: the replies", run(room, "\n".join(script[:5]) + "\n"), answers)
    stands = plain("crates/lt_engine/src/replica.rt") + plain("crates/lightning_cli/src/program.rt")
    for clause in re.findall(r"^(?:requires|ensures) .*\n(?: .*\n)*", "".join(clauses), re.M):
        if " ".join(clause.split()) not in stands:
            say(f"README: no contract has this clause:\n{clause}")


def guide(room):
    known = iter(blocks("docs/guide.md"))
    export = next(known).splitlines()
    for name in ("orders.csv", "script", "feed.py"):
        shutil.copy(EXAMPLE / name, room)
    feed = [line for line in export if not line.startswith("psql")]
    for line in feed:
        subprocess.run(line.replace("examples/postgres/", ""), shell=True, cwd=room, check=True)
    script = next(known)
    same("guide: the script", (EXAMPLE / "script").read_text(), script)
    shown = next(known)
    same("guide: the first answers", run(room, script), shown)
    same("guide: the loop", next(known).splitlines()[-1], 'while sleep 1; do echo "pump 0 1000000" >&3; done')
    lines, answers = columns(next(known))
    typed = follow(room, script, lines)
    same("guide: behind the growth", typed, shown + answers)
    version, rest = columns(next(known))
    version = version.splitlines()
    answered = run(room, script + "\n".join(version) + "\n")
    same("guide: the second version", answered.splitlines()[-2:], rest.splitlines())
    (room / "refused").write_text(script.replace("schema", "# schema", 1))
    strict = subprocess.run([ROOT / "examples/strict", PROGRAM, "refused"], cwd=room, capture_output=True, text=True)
    same("guide: the first refusal", strict.stderr.replace("refused:", "script:", 1), next(known))
    for block in known:
        say(f"guide: a block that nothing runs:\n{block}")


def follow(room, script, lines):
    """One run over a pipe: the script, the growth of the feed once its answers came, then the lines."""
    with subprocess.Popen([PROGRAM, "run"], cwd=room, stdin=subprocess.PIPE, stdout=subprocess.PIPE, text=True) as program:
        program.stdin.write(script)
        program.stdin.flush()
        came = [program.stdout.readline() for _ in range(5)]
        with open(room / "feed.0", "ab") as feed:
            feed.write(growth())
        rest, _ = program.communicate(lines, timeout=60)
    return "".join(came) + rest


for page in (readme, guide):
    with tempfile.TemporaryDirectory() as room:
        page(pathlib.Path(room))
for fault in faults:
    print(f"first_hour: {fault}")
sys.exit(1 if faults else 0)
