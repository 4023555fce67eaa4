"""Runs a command of rt, and tells what each crate's proofs, tests and wrong bodies cost: see gate.sh.

Each check is a process `rattle`. Twice a second this reads from /proc how much processor time each one below the command
has used, so what is written is at most half a second too little for a check.
"""

import os
import re
import subprocess
import sys
import tempfile
import time

TICKS = os.sysconf("SC_CLK_TCK")
PARTS = ("proof", "tests", "bodies")


def read(path):
    """The file's text, or nothing where the process is gone."""
    try:
        with open(path, errors="replace") as file:
            return file.read()
    except OSError:
        return ""


def folder_of(pid):
    try:
        return os.readlink(f"/proc/{pid}/cwd")
    except OSError:
        return ""


class Check:
    """One process of the prover: its crate, what it is for, its processor seconds, and when it began and was last seen."""

    def __init__(self, pid, words):
        self.crate = words[words.index("--crate-name") + 1]
        self.part = "tests" if "--test" in words else "bodies" if "/rt-edit-" in folder_of(pid) else "proof"
        self.seconds, self.began, self.ended = 0.0, time.monotonic(), time.monotonic()

    def look(self, fields):
        """Takes in the fields of /proc/PID/stat from the third on."""
        self.seconds = max(self.seconds, sum(int(it) for it in fields[11:15]) / TICKS)
        self.ended = time.monotonic()


class Watch:
    """The checks below a process, now and earlier."""

    def __init__(self, top):
        self.top, self.checks = top, {}

    def look(self):
        parents, stats = {}, {}
        for pid in filter(str.isdigit, os.listdir("/proc")):
            stat = read(f"/proc/{pid}/stat")
            fields = stat[stat.rfind(")") + 2 :].split()
            if len(fields) > 19:
                parents[pid], stats[pid] = fields[1], fields
        for pid, fields in stats.items():
            key = pid, fields[19]
            if key not in self.checks:
                words = read(f"/proc/{pid}/cmdline").split("\0")
                if not self.is_below(pid, parents) or not words[0].endswith("/rattle") or "--crate-name" not in words:
                    continue
                self.checks[key] = Check(pid, words)
            self.checks[key].look(fields)

    def is_below(self, pid, parents):
        while pid in parents and pid != self.top:
            pid = parents[pid]
        return pid == self.top


def crates_below():
    """Which crates of the repository each crate stands on."""
    lines = [it.split("#")[0].strip() for it in read("crates.txt").split("\n")]
    below = {it.split(":")[0].split()[0]: it.split(":")[1].split() for it in lines if ":" in it}
    return {crate: [it for it in libraries if it in below] for crate, libraries in below.items()}


def longest_chain(seconds):
    """The chain of crates, each on the one before, whose proofs together last longest."""
    below, chains = crates_below(), {}

    def chain(crate):
        if crate not in chains:
            longest = max((chain(it) for it in below[crate]), default=(0, []), key=lambda it: it[0])
            chains[crate] = longest[0] + seconds.get(crate, 0), longest[1] + [crate]
        return chains[crate]

    return max((chain(it) for it in below), default=(0, []), key=lambda it: it[0])


def table(checks):
    """The lines of the table, and the seconds that each crate's proof lasted."""
    costs, lasted = {}, {}
    for check in checks:
        costs.setdefault(check.crate, dict.fromkeys(PARTS, 0.0))[check.part] += check.seconds
        if check.part == "proof":
            lasted[check.crate] = lasted.get(check.crate, 0) + check.ended - check.began
    costs = sorted(costs.items(), key=lambda it: -sum(it[1].values()))
    yield "| Crate | Proof | Tests | Wrong bodies | Together |"
    yield "|---|---|---|---|---|"
    whole = {part: sum(it[part] for _, it in costs) for part in PARTS}
    for name, cost in [*costs, ("all", whole)]:
        numbers = " | ".join(f"{cost[part] / 60:.1f}" for part in PARTS)
        yield f"| {name if name == 'all' else f'`{name}`'} | {numbers} | {sum(cost.values()) / 60:.1f} |"
    seconds, chain = longest_chain(lasted)
    yield ""
    yield f"longest chain of proofs: {seconds / 60:.1f} minutes: {' '.join(chain)}"


def main(command):
    log = tempfile.NamedTemporaryFile("w", prefix="nio-gate-", suffix=".log", delete=False)
    began = time.monotonic()
    running = subprocess.Popen(command, stdin=subprocess.DEVNULL, stdout=log, stderr=subprocess.STDOUT)
    watch = Watch(str(running.pid))
    while running.poll() is None:
        watch.look()
        time.sleep(0.5)
    for line in table(watch.checks.values()):
        print(line)
    kit = subprocess.run(["rt", "version"], stdout=subprocess.PIPE, universal_newlines=True).stdout.strip()
    jobs = os.environ.get("RT_JOBS", "as many as processors")
    print(f"{(time.monotonic() - began) / 60:.1f} minutes passed; {os.cpu_count()} processors, jobs: {jobs}; {kit}")
    ending = re.findall(r"^.*\d+ passed, \d+ failed.*$", read(log.name), re.M)
    print(f"{ending[-1] if ending else 'no result'}; all of it: {log.name}")
    return running.returncode


if __name__ == "__main__":
    sys.exit(main(sys.argv[1:]))
