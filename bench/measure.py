"""Runs the proved program and its peers, compares what they compute, and prints one table of nanoseconds a cell.

usage: measure.py COUNT ROUNDS NAME=PROGRAM ...   (the first NAME is the proved one; run.sh calls this)
"""

import re
import subprocess
import sys
from pathlib import Path

sys.path.insert(0, str(Path(__file__).resolve().parent.parent / "reference"))
import suites

SUITES = {
    1: "AES-128 counter mode, SHA-1",
    2: "AES-256 counter mode, SHA3-256",
    3: "LIONESS, SHA3-256",
}
WORK = ("passing", "delivered")
REFERENCE_COUNT = 3
LINE = re.compile(r"suite=(\d) (passing|delivered) ([0-9a-f]+)$", re.M)


def lines(text):
    return {(int(suite), work): value for suite, work, value in LINE.findall(text)}


def run(program, count):
    """The checksums and the times of one run."""
    done = subprocess.run([program, str(count)], capture_output=True, text=True)
    sums, times = lines(done.stdout), lines(done.stderr)
    if done.returncode or len(sums) != 6 or len(times) != 6:
        sys.exit(f"{program} {count} failed with code {done.returncode}:\n{done.stdout}{done.stderr}")
    return sums, {row: int(time) for row, time in times.items()}


def reference(count):
    """The checksums as reference/suites.py has them. It hashes the whole stream at every cell, so count is small."""
    sums = {}
    for suite in SUITES:
        seed_size, _, key_size, _ = suites.PARTS[suite]
        slip = bytes((i * 11 + 5) % 256 for i in range(2 * seed_size + 2 * key_size))
        seed, _, key, _ = suites.slip_parts(suite, slip)
        cipher, hash_of = suites.CIPHER[suite](key), suites.HASH[suite]
        payload, taken = bytes((i * 7 + 3) % 256 for i in range(suites.PAYLOAD)), seed
        for n in range(count):
            payload = cipher.remove(n, payload)
            taken += payload[:5] + bytes(4) + payload[9:]
        sums[suite, "passing"] = payload[:8].hex()
        sums[suite, "delivered"] = hash_of(taken)[:4].hex()
    return sums


def compare(sums):
    """Stops unless every source has the same checksums."""
    first = next(iter(sums))
    for name, rows in sums.items():
        for row, value in rows.items():
            if value != sums[first][row]:
                sys.exit(f"suite {row[0]} {row[1]}: {name} has {value}, {first} has {sums[first][row]}")


def table(best):
    names = list(best)
    proved = best[names[0]]
    against = [name for name in names if name in ("C", "OpenSSL")]
    heads = names + [f"{names[0]}/{name}" for name in against]
    print(f"{'suite':35}{'cell':>11}" + "".join(f"{head:>16}" for head in heads))
    for suite, title in SUITES.items():
        for work in WORK:
            row = suite, work
            cells = [f"{best[name][row]}" for name in names]
            cells += [f"{proved[row] / max(best[name][row], 1):.2f}" for name in against]
            print(f"{f'{suite} {title}':35}{work:>11}" + "".join(f"{cell:>16}" for cell in cells))


def main():
    count, rounds = int(sys.argv[1]), int(sys.argv[2])
    programs = dict(word.split("=", 1) for word in sys.argv[3:])
    small = {name: run(program, REFERENCE_COUNT)[0] for name, program in programs.items()}
    compare({"reference/suites.py": reference(REFERENCE_COUNT), **small})
    best = {}
    for _ in range(rounds):
        sums = {}
        for name, program in programs.items():
            sums[name], times = run(program, count)
            known = best.setdefault(name, times)
            best[name] = {row: min(known[row], times[row]) for row in times}
        compare(sums)
    print(f"All checksums agree: with reference/suites.py for {REFERENCE_COUNT} cells, and with each other for all.")
    print(f"Nanoseconds a cell; {count} cells for each figure, the least of {rounds} rounds:")
    table(best)


main()
