"""Lists the runs of a program in parts: cursors, job, segments, part, probes, plan, whole. ick-parts is the command."""


class Refused(Exception):
    """The files don't have what was asked for: status 1. OSError, also for ick that failed, is status 4."""
