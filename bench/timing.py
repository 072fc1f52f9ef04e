"""Processor time of runs, which other work on the machine alters little: medians of five, or a single run where it takes more than ten seconds."""
import resource
import statistics
import subprocess
import sys

RUNS = 5
LONG = 10  # seconds


def spent():
    """The processor's seconds of all runs so far."""
    usage = resource.getrusage(resource.RUSAGE_CHILDREN)
    return usage.ru_utime + usage.ru_stime


def seconds_of(command, **how):
    """The seconds of one run, and what it gave."""
    before = spent()
    done = subprocess.run(command, capture_output=True, **how)
    return spent() - before, done


def timed(command, data, answer):
    """The seconds of one run, which must end with the answer."""
    seconds, done = seconds_of(command, input=data)
    if done.returncode != 0 or done.stdout.decode() != answer + "\n":
        sys.exit(f"{' '.join(command)}: {done.stdout!r}, status {done.returncode}, in place of {answer!r}")
    return seconds


def median(command, data, answer):
    """The median, and of how many runs."""
    seconds = [timed(command, data, answer)]
    while len(seconds) < RUNS and seconds[0] <= LONG:
        seconds.append(timed(command, data, answer))
    return statistics.median(seconds), len(seconds)
