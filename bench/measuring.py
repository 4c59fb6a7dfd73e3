"""What the scripts beside this one share: texts to read, and times and memory of commands."""
import os, pathlib, subprocess, tempfile, time

HERE = pathlib.Path(__file__).resolve().parent
ROOT = HERE.parent
BINARY = str(ROOT / "crates/slif/out/slif")


def document(size):
    """A JSON list of records of at least so many bytes."""
    parts, length, n = [], 2, 0
    while length < size:
        part = f'{{"name": "record {n}", "tags": ["x", {n}, -{n}.5e3], "ok": true, "none": null, "empty": {{}}}}'
        parts.append(part)
        length += len(part) + 2
        n += 1
    return "[" + ",\n".join(parts) + "]"


def measure(command):
    """The wall time, the processor time, the peak memory in MB, the status and the output."""
    begin = time.perf_counter()
    with tempfile.TemporaryFile() as told:
        run = subprocess.Popen(command, stdin=subprocess.DEVNULL, stdout=told, stderr=subprocess.STDOUT)
        _, status, used = os.wait4(run.pid, 0)
        spent = time.perf_counter() - begin
        run.returncode = os.waitstatus_to_exitcode(status)
        told.seek(0)
        text = told.read().decode(errors="replace")
    return spent, used.ru_utime + used.ru_stime, used.ru_maxrss / 1024, run.returncode, text


def best(commands, rounds=3):
    """The least times and the greatest memory of each command, which are run in turn; the status and the output of the first run."""
    results = [[] for _ in commands]
    for _ in range(rounds):
        for result, command in zip(results, commands):
            result.append(measure(command))
    return [(min(r[0] for r in rs), min(r[1] for r in rs), max(r[2] for r in rs), rs[0][3], rs[0][4]) for rs in results]


def has_marpa():
    try:
        return subprocess.run(["perl", "-MMarpa::R2", "-e", "1"], capture_output=True).returncode == 0
    except OSError:
        return False
