"""Stands for sag in the tests of sag-experiment: it unrolls as sag does, and analyses not at all. A table of more than
`MANY` jobs exceeds its budget, one of tasks that need more than `FULL` of a core is said to miss. Where the first job
is released at `BROKEN`, the certificate is said not to be valid."""

import sys

MANY, FULL, BROKEN = 15, 0.5, 77
HEADING = "Task ID,Job ID,Arrival min,Arrival max,Cost min,Cost max,Deadline,Priority\n"


def rows(name):
    with open(name, encoding="ascii") as stream:
        return [[int(field) for field in line.split(",")] for line in stream.read().splitlines()[1:]]


def unroll(tasks, horizon, policy):
    for task, period, offset, jitter, least, most, deadline in rows(tasks):
        for number, release in enumerate(range(offset, int(horizon), period), start=1):
            priority = {"rate": period, "deadline": deadline, "edf": release + deadline}[policy]
            yield f"{task},{number},{release},{release + jitter},{least},{most},{release + deadline},{priority}\n"


def verdict(jobs):
    return "miss" if sum(job[5] / job[7] for job in {job[0]: job for job in jobs}.values()) > FULL else "ok"


def analyse(jobs, cores):
    print(f"sagcert 2 {len(jobs)} {cores}\nlevel 0 1\nroot 0:0")
    for level in range(1, len(jobs) + 1):
        print(f"level {level} 1\nstate 0 {level - 1} 0:1 | |\nedge 0 {level - 1} 0 0 0")
    for number in range(len(jobs)):
        print(f"job {number} 0 1 {verdict(jobs)}")
    print(f"verdict {verdict(jobs)}\nend")


def main(command, *words):
    if command == "unroll":
        sys.stdout.write(HEADING + "".join(unroll(*words)))
        return 0
    jobs = rows(words[0])
    if command == "analyse" and len(jobs) > MANY:
        print(f"spent level 3 states {MANY + 1} edges 70", file=sys.stderr)
        return 4
    if command == "analyse":
        analyse(jobs, words[2])
    elif command == "check" and jobs[0][2] == BROKEN:
        print("no K6 line 8")
        return 1
    elif command == "check":
        print(f"yes\nverdict {verdict(jobs)}")
    else:
        print("Task ID,Job ID,BCCT,WCCT,BCRT,WCRT")
    return 0


sys.exit(main(*sys.argv[1:]))
