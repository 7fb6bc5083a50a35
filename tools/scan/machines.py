"""The layouts of prepared pages on several machines, by GNU parallel."""

import os
import shutil
import subprocess
import sys
import tempfile

from .trouble import Trouble, advice

END = b"</html>\n"
# What a machine does with a page: it answers with layout1's status and, behind it, the document or what layout1 says.
COMMAND = (
    "layout1 {options} < {{}} > {{.}}.part 2> {{.}}.err; code=$?; if [ $code = 0 ]; then told={{.}}.part; else told={{.}}.err; fi; "
    "{{ echo $code; cat $told; }} > {{.}}.answer; rm -f {{.}}.part {{.}}.err"
)


def are_far(machines):
    """Whether one of them is another machine than this one, which is `:`."""
    return any(machine.strip().rpartition("/")[2] != ":" for machine in machines.split(","))


def see_to(machines):
    """Sees that the programs are there by which pages go to machines; raises Trouble where one is not."""
    if not shutil.which("parallel"):
        raise Trouble("GNU parallel is not there: tools/setup installs it")
    if are_far(machines) and not shutil.which("rsync"):
        raise Trouble("rsync is not there, by which pages go to other machines: tools/setup installs it")


def words_of(machines, jobs, shows):
    """The words for parallel, behind which the command stands."""
    words = ["parallel", "--null", "--sshlogin", machines, "-j", str(jobs)]
    if are_far(machines):
        words += ["--transferfile", "{}", "--return", "{.}.answer", "--cleanup"]
    return words + (["--bar"] if shows else [])


def link(page, name):
    """The page under another name, or a copy where the file system knows none."""
    try:
        os.link(page, name)
    except OSError:
        shutil.copyfile(page, name)


def answer_in(file):
    """The document that a machine answered; raises Trouble with what it said."""
    try:
        with open(file, "rb") as opened:
            code, _, told = opened.read().partition(b"\n")
    except FileNotFoundError as fault:
        raise Trouble("no machine answered: is it to be reached by ssh, without a password?") from fault
    if code != b"0":
        raise Trouble(advice(int(code or b"-1"), told.decode(errors="replace").strip()))
    if not told.endswith(END):
        raise Trouble("its machine answered half a document: its disk may be full")
    return told


def options_of(plan):
    """The words for layout1 by the plan."""
    flags = {"--words": plan.words, "--blocks": plan.blocks, "--xy": plan.xy}
    return [*([] if plan.rects is None else ["--rects", str(plan.rects)]), *(flag for flag, asked in flags.items() if asked)]


def layouts(pages, program, plan):
    """For each prepared page, by its PBM file, the document or the Trouble, one after another when all machines are done.

    The machines have the pages under names that no other file has there, in a folder of their own that goes when they are done. This one
    takes the program that is named; the others take what is on their path."""
    folder, shows = plan.output, not plan.quiet and sys.stderr.isatty()
    words = [*words_of(plan.sshlogin, plan.jobs, shows), COMMAND.format(options=" ".join(options_of(plan)))]
    path = os.path.dirname(os.path.abspath(program)) + os.pathsep + os.environ.get("PATH", os.defpath)
    environment = {**os.environ, "PATH": path, "PARALLEL_SHELL": "/bin/sh"}  # the command is sh's, whatever shell its user has
    with tempfile.TemporaryDirectory(prefix=".part-", dir=folder) as inside:
        stems = [os.path.join(inside, str(number)) for number in range(len(pages))]
        for page, stem in zip(pages, stems):
            link(page, stem + ".pbm")
        names = [os.path.relpath(stem + ".pbm", folder) for stem in stems]
        subprocess.run(words, input="\0".join(names).encode(), cwd=folder, env=environment, check=False)
        for page, stem in zip(pages, stems):
            try:
                yield page, answer_in(stem + ".answer")
            except Trouble as fault:
                yield page, fault
