"""What the counts of bench/rows and bench/whole/whole share: the program cpmhost, and what valgrind's callgrind says of it."""
import os
import re
import subprocess
import sys
import tempfile

TOP = os.path.dirname(os.path.dirname(os.path.realpath(__file__)))
CALLGRIND = "valgrind", "--tool=callgrind"


def stop(why):
    print(f"{os.path.relpath(sys.argv[0], TOP)}: {why}", file=sys.stderr)
    sys.exit(1)


def program():
    """The program that CPMHOST names, or the one that ./cpmhost runs: what release/build has built, or the release."""
    built = f"{TOP}/out/cpmhost"
    return os.path.realpath(os.environ.get("CPMHOST", built if os.path.isfile(built) else f"{TOP}/release/cpmhost"))


def counted(words, folder=None):
    """The instructions of one process, and what it printed on standard output and standard error."""
    ran = subprocess.run([*CALLGRIND, "--callgrind-out-file=/dev/null", *words], cwd=folder, stdin=subprocess.DEVNULL, capture_output=True, text=True, errors="replace")
    found = re.search(r"Collected : (\d+)", ran.stderr)
    if ran.returncode or not found:
        stop(f"{' '.join(words)} ended with status {ran.returncode}: {ran.stdout[-200:]}{ran.stderr[-400:]}")
    return int(found[1]), ran.stdout, ran.stderr


def counted_by_line(words, lines):
    """The instructions that a process takes for each line that it is given, of which each has it print one line; and these lines.

    callgrind writes down its count before each call of `write`, of which a line takes always the same number.
    """
    with tempfile.TemporaryDirectory() as folder:
        counts = f"{folder}/counts"
        options = "--dump-before=write", "--combine-dumps=yes", f"--callgrind-out-file={counts}"
        ran = subprocess.run([*CALLGRIND, *options, *words], input="".join(f"{it}\n" for it in lines), capture_output=True, text=True, errors="replace")
        with open(counts, encoding="utf-8", errors="replace") as it:
            totals = [int(line.split()[1]) for line in it if line.startswith("totals:")]
    printed = ran.stdout.splitlines()
    writes, rest = divmod(len(totals) - 1, len(lines))
    if ran.returncode or len(printed) != len(lines) or rest or not writes:
        stop(f"{' '.join(words)} ended with status {ran.returncode}, printed {len(printed)} lines for {len(lines)} and wrote {len(totals) - 1} times: {ran.stderr[-400:]}")
    return [sum(totals[at : at + writes]) for at in range(0, writes * len(lines), writes)], printed
