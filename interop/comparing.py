"""Runs of a program, and their comparison with what is wanted."""

import subprocess

from pb_model import Run


class Difference(Exception):
    """Two that should agree don't."""


def agree(what, one, other):
    """Raises `Difference` where two values differ."""
    if one != other:
        raise Difference(f"{what}: {shown(one)} and not {shown(other)}")


def shown(value):
    """A value as a text that isn't too long."""
    text = repr(value)
    return text if len(text) < 300 else f"{text[:300]}.. ({len(text)} characters)"


def run(words, data, seconds=60, **options):
    """A run of a program over some input."""
    done = subprocess.run(words, input=data, capture_output=True, timeout=seconds, **options)
    return Run(done.returncode, done.stdout, done.stderr)


def compare_runs(found, wanted):
    """A run with what it must come to."""
    agree("status", found.status, wanted.status)
    agree("complaint", found.complaint, wanted.complaint)
    agree("output", found.output, wanted.output)
