"""unproved/count OUT [ROW...]: the instructions a token and an item of the library at OUT, beside those of CLONE's
bench/COUNTS or of the file that COUNTS names. Edition 1. Without rows: all."""
import os
import subprocess
import sys
from pathlib import Path

here = Path(__file__).resolve().parent
out, wanted = Path(sys.argv[1]).resolve(), sys.argv[2:]
library = out / "libreal.so"
if not library.exists():
    sys.exit(f"{library} is not there")
base = {}
for line in open(os.environ.get("COUNTS", here / "COUNTS")):
    name, _, count = line.rpartition(": ")
    if name:
        base[name] = float(count)
# how many tokens or items the rows have (bench prints them)
UNITS = {
    "Move source": 13547, "comments": 774, "punctuation": 38845, "one long name": 1, "deep nested comments": 1,
    "short names": 8046, "hex numbers": 4780, "keywords": 10062, "line feeds": 1, "one comment": 1,
    "type, 20 bytes": 3000, "type, 200 bytes": 300, "type, 2000 bytes": 30, "bindings, 20 bytes": 3000,
    "bindings, 200 bytes": 300, "bindings, 2000 bytes": 30, "type, 60 levels": 150, "binding, 60 levels": 60,
}
for row, units in UNITS.items():
    if wanted and row not in wanted:
        continue
    walk = "byte" not in row and "levels" not in row
    said = subprocess.run(
        ["valgrind", "--tool=callgrind", "--callgrind-out-file=/dev/null",
         "--toggle-collect=real_movesig_" + ("next_token" if walk else "read"),
         here / "bench-target/release/bench", "--walk" if walk else "--read", row, "--edition", "1"],
        capture_output=True, text=True, env={**os.environ, "LD_PRELOAD": str(library)})
    found = [line.split("Collected : ")[1] for line in said.stderr.splitlines() if "Collected : " in line]
    if not found:
        sys.exit(said.stderr)
    count = int(found[0]) / units
    more = f"{100 * (count / base[row] - 1):+.2f} %" if row in base else ""
    print(f"{row}: {count:.1f} {more}", flush=True)
