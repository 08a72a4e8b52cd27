"""What the measuring scripts share: the program that is measured, the measure of one command, and tables."""
import collections
import os
import re
import subprocess
import sys
import tempfile

TOP = os.path.dirname(os.path.dirname(os.path.realpath(__file__)))
BUILDS = {"ick": "a call of ./ick builds ick", "test_runs": "`rt run` in crates/test_runs builds it"}

# What a command used: its processor time and the system's share of it in seconds, its resident memory in KiB, and its
# exit status, which is negative if a signal ended it.
Used = collections.namedtuple("Used", "seconds system memory status")


def stop(why):
    sys.exit(f"{os.path.basename(sys.argv[0])}: {why}")


def program_to_measure(usage, crate="ick"):
    """Returns the program that the one argument names, or else the one that was built of the crate."""
    if len(sys.argv) > 2 or sys.argv[1:] in (["-h"], ["--help"]):
        sys.exit(usage)
    program = os.path.abspath(sys.argv[1] if len(sys.argv) == 2 else f"{TOP}/crates/{crate}/out/{crate}")
    if not os.access(program, os.X_OK) or os.path.isdir(program):
        stop(f"{program} is no program that can be run: {BUILDS[crate]}")
    return program


def measured(words, **streams):
    """Returns what a command used. Each of its streams leads nowhere unless it is given."""
    with open(os.devnull, "r+b") as nowhere:
        child = subprocess.Popen(words, **{"stdin": nowhere, "stdout": nowhere, "stderr": nowhere, **streams})
        _, status, used = os.wait4(child.pid, 0)
    child.returncode = os.WEXITSTATUS(status) if os.WIFEXITED(status) else -os.WTERMSIG(status)
    return Used(used.ru_utime + used.ru_stime, used.ru_stime, used.ru_maxrss, child.returncode)


def measured_well(words, **streams):
    """Returns what a command used, and stops if its exit status isn't 0."""
    used = measured(words, **streams)
    if used.status:
        stop(f"{' '.join(words)} ended with status {used.status}")
    return used


def counted(words, statuses=(0,), **streams):
    """Returns the instructions of the processor that callgrind counts for a command, without the system's, and what the
    command printed if its output is a pipe. Each of its streams leads nowhere unless it is given."""
    with open(os.devnull, "r+b") as nowhere:
        ran = subprocess.run(["valgrind", "--tool=callgrind", "--callgrind-out-file=/dev/null", *words],
                             **{"stdin": nowhere, "stdout": nowhere, **streams}, stderr=subprocess.PIPE,
                             env={**os.environ, "PYTHONHASHSEED": "0"})
    found = re.search(rb"Collected : (\d+)", ran.stderr)
    if ran.returncode not in statuses or not found:
        stop(f"{' '.join(words)} ended with status {ran.returncode}:\n{ran.stderr[-300:].decode()}")
    return int(found[1]), ran.stdout


def counted_run(ick, source, limit):
    """Returns the instructions of `ick run` for a source without input, which ends by itself or at the limit."""
    with tempfile.TemporaryFile() as text:
        text.write(source.encode())
        text.seek(0)
        return counted([ick, "run", "--limit", str(limit)], (0, 3), stdin=text)[0]


def written(folder, name, text):
    """Writes a text into a file of a folder, and returns the file's path."""
    path = os.path.join(folder, name)
    with open(path, "w", encoding="ascii") as file:
        file.write(text)
    return path


def print_heading(*names):
    """Prints the head of a table in Markdown."""
    print(f"| {' | '.join(names)} |\n|{'---|' * len(names)}", flush=True)


def print_row(*cells):
    print(f"| {' | '.join(cells)} |", flush=True)


def run(main):
    """Calls a script's main function. A file that can't be used, or a command that fails, is told in one line."""
    try:
        main()
    except (OSError, subprocess.CalledProcessError) as error:
        stop(error)
    except KeyboardInterrupt:
        sys.exit(130)
