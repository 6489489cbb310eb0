"""Processor times of runs."""

import resource


def processor_time(run):
    """The processor time of a run in seconds, and how it ended."""
    before = resource.getrusage(resource.RUSAGE_CHILDREN)
    ended = run()
    after = resource.getrusage(resource.RUSAGE_CHILDREN)
    return after.ru_utime + after.ru_stime - before.ru_utime - before.ru_stime, ended
