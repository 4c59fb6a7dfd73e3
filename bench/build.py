"""Proves and builds a program, or one crate, with the crates below it, as many side by side as there are processors and 3 GB of memory for each.

    python3 bench/build.py                       the program slif
    python3 bench/build.py slif -- run ..        the same, and runs it with these words
    python3 bench/build.py jagged                one crate

What was proved once is not proved again. The status is that of the first step that fails, or of the run.
"""
import os, subprocess, sys

TOP = os.path.dirname(os.path.dirname(os.path.abspath(__file__)))


def side_by_side():
    """As many checks as there are processors and 3 GB of free memory for each."""
    with open("/proc/meminfo") as it:
        free = next(int(line.split()[1]) for line in it if line.startswith("MemAvailable:"))
    return max(1, min(os.cpu_count() or 1, free // 3145728))


def main(words):
    cut = words.index("--") if "--" in words else len(words)
    name, given = (words[:cut] or ["slif"])[0], words[cut + 1 :]
    folder = f"{TOP}/crates/{name}"
    if not os.path.isdir(f"{folder}/src"):
        sys.exit(f"no crate {name}")
    most = side_by_side()
    # A crate that waits for one below it holds its turn, so some more are under way than work.
    checked = subprocess.run(["rt", "all", "check", "--jobs", str(most + most // 2)], cwd=folder, stdin=subprocess.DEVNULL)
    if checked.returncode != 0 or not os.path.exists(f"{folder}/src/main.rt"):
        sys.exit(checked.returncode)
    sys.exit(subprocess.run(["rt", "run", "--jobs", str(most), "--", *given], cwd=folder).returncode)


if __name__ == "__main__":
    main(sys.argv[1:])
