"""The example's log holds the worked frames that docs/formats.md spells out: header, insert, checkpoint."""
import pathlib
import re
import sys

root = pathlib.Path(__file__).resolve().parent.parent
page = (root / "docs" / "formats.md").read_text(encoding="utf-8")
section = page.split("### Worked frames", 1)[1].split("\n## ", 1)[0]
blocks = re.findall(r"```\n(.*?)```", section, re.S)


def frame(block):
    """The bytes of a block: its lines of digits without its lines of words."""
    digits = [line for line in block.splitlines() if re.fullmatch(r"[0-9a-f ]+|[0-9a-f ]*4c544c4f4731[0-9a-f ]*", line)]
    return bytes.fromhex("".join("".join(digits).split()))


header, checkpoint, insert = (frame(block) for block in blocks[:3])
expected = header + insert + checkpoint
found = (root / "examples" / "one_stream" / "feed.0").read_bytes()
if expected != found:
    sys.exit(f"examples/one_stream/feed.0 is {found.hex()}, docs/formats.md says {expected.hex()}")
