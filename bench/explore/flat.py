"""What a settlement costs as the board grows: explorations of one pair with more and more settlements.

The pair has eight parameters, each compared with three numbers, so that its paths are 4 to the power of 8, and its versions
end alike on all of them. Each line shows a limit on settlements, the live entries that it leaves, the processor time, and
the time of one more settlement since the line before.
"""

import os
import resource
import subprocess
import sys
import tempfile

LIMITS = [500, 1000, 2000, 5000, 10000, 20000, 40000]
NAMES = "abcdefgh"


def version(last):
    """One version: `last` is the marked statement."""
    lines = ["int main(" + ", ".join(f"int {name}" for name in NAMES) + ") {", "int r = 0;"]
    for place, name in enumerate(NAMES):
        for number in (10, 20, 30):
            lines.append(f"if ({name} < {number}) r = r + {4 ** place};")
    return "\n".join(lines + [f"@1 return {last};", "}", ""])


def measure(program, old, new, limit):
    """Processor time of one exploration in seconds, its settlements and its live entries."""
    before = resource.getrusage(resource.RUSAGE_CHILDREN)
    command = [program, "explore", old, new, "--workers", "0", "--settlements", str(limit)]
    report = subprocess.run(command, stdout=subprocess.PIPE, check=False).stdout.decode().splitlines()
    after = resource.getrusage(resource.RUSAGE_CHILDREN)
    seconds = after.ru_utime + after.ru_stime - before.ru_utime - before.ru_stime
    return seconds, int(report[0].split()[1]), report[-1]


def main():
    program, rounds = sys.argv[1], int(sys.argv[2])
    with tempfile.TemporaryDirectory() as folder:
        old, new = os.path.join(folder, "old.mc"), os.path.join(folder, "new.mc")
        with open(old, "w", encoding="ascii") as file:
            file.write(version("r"))
        with open(new, "w", encoding="ascii") as file:
            file.write(version("r - 0"))
        print(f"{'settlements':>11} {'entries':>8} {'seconds':>8} {'each of those past the line before, in microseconds':>52}")
        earlier = (0.0, 0)
        for limit in LIMITS:
            seconds, entries, last = min(measure(program, old, new, limit) for _ in range(rounds))
            each = (seconds - earlier[0]) / (limit - earlier[1]) * 1e6
            print(f"{limit:>11} {entries:>8} {seconds:>8.2f} {each:>52.0f}  {last}", flush=True)
            earlier = (seconds, limit)
            if last == "end done":
                break


if __name__ == "__main__":
    main()
