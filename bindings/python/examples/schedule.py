#!/usr/bin/env python3
"""Makes what nvcc makes, with up to four commands at once: `schedule.py WORD..` in place of `nvcc WORD..`."""

import concurrent.futures
import os
import subprocess
import sys
import tempfile
from typing import Dict, List

import zigrunk

JOBS = 4


def run(command: zigrunk.Command) -> "subprocess.CompletedProcess[bytes]":
    return subprocess.run(command.words, cwd=command.cwd, env=command.environment, stdout=subprocess.PIPE, stderr=subprocess.STDOUT, check=False)


def run_plan(plan: zigrunk.Plan) -> int:
    """Prints what the commands print in the plan's order, up to the first that fails, and returns its status."""
    schedule, told = zigrunk.Schedule([plan], JOBS), 0
    ran: Dict[int, "subprocess.CompletedProcess[bytes]"] = {}
    with concurrent.futures.ThreadPoolExecutor(JOBS) as pool:
        running: Dict["concurrent.futures.Future[subprocess.CompletedProcess[bytes]]", int] = {}
        while not schedule.over:
            running.update((pool.submit(run, plan.commands[number]), number) for number in schedule.start_ready())
            for done in concurrent.futures.wait(running, return_when=concurrent.futures.FIRST_COMPLETED).done:
                number = running.pop(done)
                ran[number] = done.result()
                schedule.ended(number, zigrunk.Outcome.FAILED if ran[number].returncode else zigrunk.Outcome.SUCCEEDED)
            now = schedule.told(told, len(schedule) if told == 0 or ran[told - 1].returncode == 0 else told).commands
            for number in now:
                sys.stderr.buffer.write(ran[number].stdout)
            told = now.stop
    return ran[told - 1].returncode


def main(words: List[str]) -> int:
    with tempfile.TemporaryDirectory() as tmp:
        try:
            call = zigrunk.Call("nvcc", words, os.environ, os.getcwd(), tmp)
            plan = call.plan()
        except zigrunk.ZigrunkError:
            return subprocess.run(["nvcc", *words], check=False).returncode
        rule = call.dependencies
        status = subprocess.run(rule.words, cwd=rule.cwd, env=rule.environment, check=False).returncode if rule else 0
        return status or run_plan(plan)


if __name__ == "__main__":
    sys.exit(main(sys.argv[1:]))
