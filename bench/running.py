"""A run of the program, measured. The other scripts import it."""
import os
import sys
import time


def high_water(pid, program):
    """The most memory that the process had so far, in KiB, or 0 where it isn't this program yet or no longer."""
    try:
        if not os.path.samefile("/proc/%d/exe" % pid, program):
            return 0
        with open("/proc/%d/status" % pid) as f:
            return next((int(line.split()[1]) for line in f if line.startswith("VmHWM")), 0)
    except OSError:
        return 0


def run(program, words, given, said, statuses=(0,)):
    """Seconds by the clock, processor seconds of the user's and the system's side, and peak memory in KiB.

    The memory is looked at each half millisecond while the program runs, since what the system tells of an ended process
    is never less than what this script had when it began it. So it is what was seen: a rise within the last half
    millisecond isn't, and 0 says that the program was over before it was looked at.
    """
    files = [(os.POSIX_SPAWN_OPEN, 0, given, os.O_RDONLY, 0),
             (os.POSIX_SPAWN_OPEN, 1, said, os.O_WRONLY | os.O_CREAT | os.O_TRUNC, 0o600)]
    start = time.monotonic()
    pid = os.posix_spawn(program, [program] + list(words), os.environ, file_actions=files)
    peak = 0
    while True:
        ended, status, usage = os.wait4(pid, os.WNOHANG)
        if ended:
            break
        peak = max(peak, high_water(pid, program))
        time.sleep(0.0005)
    clock = time.monotonic() - start
    if os.waitstatus_to_exitcode(status) not in statuses:
        sys.exit("the program ended with status %d" % os.waitstatus_to_exitcode(status))
    return clock, usage.ru_utime, usage.ru_stime, peak
