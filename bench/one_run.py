"""Runs a command and prints its status, its seconds of wall clock and its peak memory in KiB.

The peak that the system tells of a process is at least that of the process which started it. So bench/timing.py starts
commands by this one, which imports little: it takes about 9 MiB itself, and no peak that it tells is less.
usage: one_run.py OUTPUT COMMAND..
"""
import os
import sys
import time

output = os.open(sys.argv[1], os.O_WRONLY)
began = time.monotonic()
child = os.posix_spawnp(sys.argv[2], sys.argv[2:], os.environ,
                        file_actions=[(os.POSIX_SPAWN_DUP2, output, 1), (os.POSIX_SPAWN_DUP2, output, 2)])
_, status, usage = os.wait4(child, 0)
print(os.waitstatus_to_exitcode(status), time.monotonic() - began, usage.ru_maxrss)
