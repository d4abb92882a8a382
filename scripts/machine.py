"""What the checks use of this machine: how many runs they make at once, a directory in memory, and an ordinary user."""

import math
import os
import random
import shutil
import time
from pathlib import Path

# The processor time that a control group gets in a period, by both versions of control groups.
QUOTAS = [["/sys/fs/cgroup/cpu.max"], ["/sys/fs/cgroup/cpu/cpu.cfs_quota_us", "/sys/fs/cgroup/cpu/cpu.cfs_period_us"]]
IN_MEMORY = "/dev/shm"
# An ordinary user, for checks that root makes.
NOBODY = 65534
# The processor seconds of `fixed_work` on the machine for which limits of processor time are, and the most by which they are raised.
HERE, MOST_SLOWNESS = 0.14, 4


def quota(paths):
    """The processors that a control group gets, infinity without a limit."""
    try:
        time, period = (int(word) for path in paths for word in Path(path).read_text().split())
    except (OSError, ValueError):
        return math.inf
    return time / period if time > 0 else math.inf


def processors():
    """The processors of this process: a container may have fewer than its machine."""
    return max(1, min(len(os.sched_getaffinity(0)), *(math.ceil(most) if most < math.inf else 2**16 for most in map(quota, QUOTAS))))


def in_memory(mebibytes):
    """A directory in memory with this much room, where flushing takes no time, or None."""
    if not os.access(IN_MEMORY, os.W_OK) or shutil.disk_usage(IN_MEMORY).free < mebibytes * 2**20:
        return None
    return IN_MEMORY


def fixed_work():
    """The processor seconds of a fixed piece of work: sorting texts and looking them up, as the program does."""
    chance = random.Random(1)
    texts = [chance.randbytes(12) for _ in range(100000)]
    begin = time.process_time()
    texts.sort()
    at = {text: number for number, text in enumerate(texts)}
    sum(at[text] for text in reversed(texts))
    return time.process_time() - begin


def slowness():
    """How often a limit of processor time is taken on this machine: once if it is as fast as the one for which the limits are, more often if
    its processors are slower, or shared with other work. Otherwise a slow machine would fail what holds on a faster one."""
    return min(MOST_SLOWNESS, max(1, min(fixed_work() for _ in range(5)) / HERE))
