"""The limits of time of the scripts. Each script states its own in seconds, for a machine on which the tests alone run; on a slower or a
busy one, SLOWER=N in the environment multiplies each of them by N."""
import math
import os

# By how much each limit is multiplied.
SLOWER = float(os.environ.get("SLOWER") or 1)


def limit(seconds: int) -> int:
    """A limit of this many seconds, as SLOWER changes it."""
    return math.ceil(seconds * SLOWER)
