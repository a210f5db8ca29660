"""What the programs in bench/ share: timed runs of commands."""
import collections
import os
import subprocess
import sys
import tempfile

HERE = os.path.dirname(os.path.abspath(__file__))
ROOT = os.path.dirname(HERE)
PROGRAM = os.path.join(ROOT, "falgizbo")

# `seconds` of wall clock, `peak` in MiB
Run = collections.namedtuple("Run", "status printed seconds peak")


def timed(words):
    with tempfile.NamedTemporaryFile() as output:
        small = [sys.executable, "-S", "-E", os.path.join(HERE, "one_run.py"), output.name] + words
        status, seconds, peak = subprocess.run(small, stdout=subprocess.PIPE, check=True).stdout.split()
        printed = output.read().decode(errors="replace")
    return Run(int(status), printed, float(seconds), int(peak) / 1024)


def build():
    """Has `falgizbo` built where it is not, so that no timing counts it."""
    subprocess.run([PROGRAM, "split", "/", "/"], stdout=subprocess.DEVNULL)
