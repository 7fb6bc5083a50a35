"""What went wrong with a page, in a person's words, and what helps."""

import os
import re
import sys


class Trouble(Exception):
    """What is wrong with an input, and what helps, in a person's words."""


HELP = {
    3: "make the page again",
    5: "look at the disk or the pipe, and run again",
    6: "the disk is full or the folder cannot be written",
    7: "there was not enough memory: fewer at a time (-j)",
    127: "layout1 is not on the path of that machine",
}


def words_of_status(status):
    """How a program ended that said nothing."""
    return f"it was killed by signal {-status}" if status < 0 else f"it ended with status {status}"


def advice(status, line):
    """What layout1's line on standard error means, and what to do."""
    many = re.fullmatch(r"limit: (\d+) components", line)
    if many:
        marks = f"{int(many.group(1)):,} marks are over the limit of 60,000: it is full of grain or of a photograph"
        return f"{marks}; prepare it with all steps, or scan it at fewer dots per inch"
    size = re.fullmatch(r"limit: size (\d+) by (\d+)", line)
    if size:
        sides = f"{int(size.group(1)):,} by {int(size.group(2)):,} pixels"
        return f"{sides} are over the limit of 8,192 a side and 33,554,432 in all: scan it at fewer dots per inch"
    helps = HELP.get(status)
    told = line or words_of_status(status)
    return f"{told}; {helps}" if helps else told


def ended(name, main, words):
    """The status of a run, with all that it told written; a run that is broken off, lacks a module, or cannot write says so in a line."""
    try:
        status = main(words)
        sys.stdout.flush()
        return status
    except KeyboardInterrupt:
        print(f"\n{name}: broken off", file=sys.stderr)
        return 130
    except ModuleNotFoundError as fault:
        package = {"PIL": "python3-pil"}.get(fault.name, f"python3-{fault.name}")
        print(f"{name}: {sys.executable} has no {fault.name}, which Debian's package {package} brings: run tools/setup", file=sys.stderr)
        return 1
    except OSError as fault:
        print(f"{name}: {fault.filename or 'standard output'}: {fault.strerror}", file=sys.stderr)
        # What is left for standard output cannot be written either.
        os.dup2(os.open(os.devnull, os.O_WRONLY), sys.stdout.fileno())
        return 1
