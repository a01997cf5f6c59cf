"""Builds the program that a benchmark runs, and measures its runs.

It is `exportdesk` itself, or a crate of its own, added to a copy of the tree, so that the repository has no crate that
is there for the benchmark alone.
"""

import os
import pathlib
import re
import shutil
import subprocess
import sys
import time

RUNS = 5
TOP = pathlib.Path(__file__).resolve().parent.parent


def build(tree, name, crates, libraries, words):
    """Proves and builds bench/NAME.rt.in over these crates and libraries of the kit, in a copy of the tree, runs it once
    with these words, and returns where it is."""
    # (so that the libraries stand proved in out/)
    subprocess.run([TOP / "prove"], check=True, stdout=subprocess.DEVNULL)
    for crate in crates:
        for part in ("src", "specs", "proofs", "out/rlib"):
            source = TOP / "crates" / crate / part
            if source.is_dir():
                shutil.copytree(source, tree / "crates" / crate / part)
    shutil.copy(TOP / "HANDLES", tree)
    lines = [line for line in (TOP / "crates.txt").read_text().splitlines() if line.split(":")[0] in crates]
    lines.append(f"{name}_bench: {libraries}")
    (tree / "crates.txt").write_text("\n".join(lines) + "\n")
    crate = tree / "crates" / f"{name}_bench"
    (crate / "src").mkdir(parents=True)
    shutil.copy(TOP / "bench" / f"{name}.rt.in", crate / "src" / "main.rt")
    print(f"bench/{name}: proving and building the benchmark itself", file=sys.stderr)
    done = subprocess.run(["rt", "run", "--", *words], cwd=crate, capture_output=True, text=True)
    if done.returncode != 0:
        sys.exit(done.stdout + done.stderr)
    return crate / "out" / f"{name}_bench"


def write_site(folder, files):
    """Writes the texts of a site, each given by its lines, and returns their folder. Unless they say otherwise, `site`
    keeps `/a` alone. They are written line by line, since the peak memory of a child counts what this process held when it
    began."""
    (folder / "exports").mkdir(parents=True)
    for name, lines in {"custodians": [f"site {'0' * 64}\n"], "filesystems": ["/a site\n"], **files}.items():
        with open(folder / name, "w", encoding="utf-8") as text:
            text.writelines(lines)
    return folder


def proved():
    """Where the program of these sources is: the one that ./prove made, or else the shipped one."""
    done = subprocess.run([TOP / "ship", "--path"], check=True, stdout=subprocess.PIPE, text=True)
    return done.stdout.strip()


def timed_run(words, statuses=(0,), out=subprocess.PIPE, of_processor=False, messages=None):
    """The time in seconds, or that of the processor alone, the peak memory in MB, and what is printed of one run that
    has to end with one of these statuses."""
    begin = time.monotonic()
    child = subprocess.Popen(words, stdout=out, stderr=messages, text=True)
    answer = child.stdout.read() if child.stdout else ""
    _, status, usage = os.wait4(child.pid, 0)
    elapsed = usage.ru_utime + usage.ru_stime if of_processor else time.monotonic() - begin
    child.returncode = os.waitstatus_to_exitcode(status)
    if child.returncode not in statuses:
        sys.exit(f"{words}: status {child.returncode}: {answer}")
    return elapsed, usage.ru_maxrss * 1024 / 1e6, answer.strip()


def run(words):
    """What one run prints, and its peak memory in MB."""
    _, peak, answer = timed_run(words)
    return answer, peak


def instructions(words, folder):
    """How many instructions one run takes, by valgrind's callgrind."""
    command = ["valgrind", "--tool=callgrind", f"--callgrind-out-file={folder}/callgrind", *words]
    done = subprocess.run(command, stdout=subprocess.DEVNULL, stderr=subprocess.PIPE, text=True)
    return int(re.search(r"Collected : (\d+)", done.stderr).group(1))
