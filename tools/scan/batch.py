"""Many pages: each is prepared and laid out, those that are done are passed over, and one that fails stops no other."""

import os
import re
import shutil
import subprocess
import sys
import threading
import time
from concurrent.futures import ThreadPoolExecutor, as_completed
from dataclasses import dataclass, replace

from .files import write_whole
from .inputs import files_in, plain_page, sources_of
from .leptonica import NoLibrary
from .machines import layouts, options_of, see_to
from .trouble import Trouble, advice, words_of_status

MOST_TOLD = 100  # pages that the list at the end names
PLAIN = re.compile(r"[\t\r\n]")  # what a cell of the log has not
TOOLS = os.path.dirname(os.path.dirname(os.path.realpath(__file__)))
BUILT = os.path.join(os.path.dirname(TOOLS), "crates", "layout1", "out", "layout1")


def find_program(named):
    """The program layout1: the one that is named, that of this folder where it is built, or the one on the path; raises Trouble."""
    program = named or (BUILT if os.access(BUILT, os.X_OK) else shutil.which("layout1"))
    if not program:
        raise Trouble("layout1 is not built and not on the path: ./demo builds it")
    if not (os.path.isfile(program) and os.access(program, os.X_OK)):
        raise Trouble(f"{program} is no program")
    return program


@dataclass
class Page:
    """A page of an input, and the names of its files without their endings."""

    source: object
    path: str

    @property
    def name(self):
        return os.path.basename(self.path)

    def file(self, ending):
        return f"{self.path}.{ending}"

    def is_done(self):
        """Its document is there, and younger than the file that it is of."""
        try:
            return os.path.getmtime(self.file("hocr")) >= os.path.getmtime(self.source.file)
        except OSError:
            return False


class Batch:
    """One run over all inputs of a command line."""

    def __init__(self, plan):
        self.plan = plan
        self.failed = []
        self.done = 0
        self.passed = 0
        self.stopped = threading.Event()
        self.children = set()
        self.lock = threading.Lock()
        self.log = Log(os.path.join(plan.output, "log.tsv"))

    def run(self):
        """Does it, and answers the exit status."""
        try:
            self.program = find_program(self.plan.layout1)
            if self.plan.sshlogin:
                see_to(self.plan.sshlogin)
            os.makedirs(self.plan.output, exist_ok=True)
            self.log.open()
            self.work(self.find_pages())
        except (Trouble, NoLibrary) as fault:
            print(f"pages: {fault}", file=sys.stderr)
            return 1
        except OSError as fault:
            print(f"pages: {fault.filename}: {fault.strerror}", file=sys.stderr)
            return 1
        except KeyboardInterrupt:
            self.stop()
            print(f"\npages: broken off; {self.done} page(s) were laid out: the same words go on from there", file=sys.stderr)
            return 130
        finally:
            self.log.close()
        return self.tell()

    def find_pages(self):
        """The pages of all inputs that are still to be done."""
        files, wrong = files_in(self.plan.inputs)
        for name, reason in wrong:
            self.fail(name, reason)
        pages = []
        for file in files:
            try:
                sources = sources_of(file)
            except Trouble as fault:
                self.fail(file, str(fault))
                continue
            for source in sources:
                page = Page(source, os.path.join(self.plan.output, self.log.name_for(source)))
                if page.is_done():
                    self.passed += 1
                else:
                    pages.append(page)
        return pages

    def work(self, pages):
        """All pages: each prepared and laid out by a thread, or all prepared and then laid out on several machines."""
        one = self.ready if self.plan.sshlogin else self.whole
        ready = []
        with bar(len(pages), self.plan.quiet) as progress, ThreadPoolExecutor(self.plan.jobs) as pool:
            futures = {pool.submit(self.timed, one, page): page for page in pages}
            try:
                for future in as_completed(futures):
                    if future.result():
                        ready.append(futures[future])
                    progress.update(1)
            except KeyboardInterrupt:
                self.stopped.set()
                pool.shutdown(wait=False, cancel_futures=True)
                self.stop()
                raise
        if self.plan.sshlogin and ready:
            self.far(ready)

    def timed(self, one, page):
        """One page: true where it went well."""
        if self.stopped.is_set():
            return False
        try:
            one(page, time.monotonic())
        except Trouble as fault:
            self.fail(page.source, str(fault), page.name)
            return False
        except OSError as fault:
            self.fail(page.source, f"{fault.filename or page.path}: {fault.strerror}", page.name)
            return False
        return True

    def whole(self, page, began):
        """Prepares a page and lays it out. The log knows it before its document is there: one that it does not know is another's."""
        done = self.prepare(page)
        document = self.laid_out(page)
        self.note(page, began, done)
        write_whole(page.file("hocr"), document)
        with self.lock:
            self.done += 1

    def ready(self, page, began):
        """Prepares a page that other machines lay out."""
        self.note(page, began, self.prepare(page))

    def note(self, page, began, words):
        with self.lock:
            self.log.add(page.name, identity(page.source), f"{time.monotonic() - began:.2f}", words)

    def prepare(self, page):
        """Makes the page's PBM, and answers what was done to it."""
        if self.plan.plain:
            write_whole(page.file("pbm"), plain_page(page.source))
            return "as it is"
        words = [sys.executable, os.path.join(TOOLS, "prepare"), "--page", str(page.source.number), "-o", page.file("pbm")]
        if self.plan.without:
            words += ["--without", self.plan.without]
        if self.plan.resolution:
            words += ["--resolution", str(self.plan.resolution)]
        status, out, err = self.child([*words, page.source.file])
        if status != 0:
            lines = err.decode(errors="replace").strip().splitlines() or [words_of_status(status)]
            raise Trouble(lines[-1].removeprefix("prepare: ").removeprefix(f"{page.source.file}: "))
        return out.decode(errors="replace").strip()

    def laid_out(self, page):
        """The page's document; raises Trouble."""
        with open(page.file("pbm"), "rb") as file:
            status, out, err = self.child([self.program, *options_of(self.plan)], file)
        if status != 0:
            raise Trouble(advice(status, err.decode(errors="replace").strip()))
        return out

    def child(self, words, stdin=subprocess.DEVNULL):
        """What a program of ours answers: its status and both its streams. It is ended with this run."""
        with subprocess.Popen(words, stdin=stdin, stdout=subprocess.PIPE, stderr=subprocess.PIPE, start_new_session=True) as process:
            with self.lock:
                self.children.add(process)
            try:
                out, err = process.communicate()
            finally:
                with self.lock:
                    self.children.discard(process)
        return process.returncode, out, err

    def stop(self):
        with self.lock:
            for process in self.children:
                process.kill()

    def far(self, pages):
        """The layouts of prepared pages on several machines."""
        known = {page.file("pbm"): page for page in pages}
        for file, answer in layouts(list(known), self.program, self.plan):
            page = known[file]
            try:
                if isinstance(answer, Trouble):
                    raise answer
                write_whole(page.file("hocr"), answer)
                self.done += 1
            except Trouble as fault:
                self.fail(page.source, str(fault), page.name)
            except OSError as fault:
                self.fail(page.source, f"{fault.filename or page.path}: {fault.strerror}", page.name)

    def fail(self, source, words, name=""):
        with self.lock:
            self.failed.append((str(source), words))
            self.log.add(name, identity(source) if name else source, "", f"no document: {words}")

    def tell(self):
        """The list at the end."""
        passed = f", {self.passed} were there already" if self.passed else ""
        stream = sys.stderr if self.failed else sys.stdout
        print(f"pages: {self.done} laid out{passed}, {len(self.failed)} without a document", file=stream)
        for name, words in sorted(self.failed)[:MOST_TOLD]:
            print(f"  {name}: {words}", file=stream)
        if len(self.failed) > MOST_TOLD:
            print(f"  and {len(self.failed) - MOST_TOLD:,} more: see {self.log.file}", file=stream)
        if self.log.fault:
            print(f"pages: {self.log.file} is not whole: {self.log.fault}", file=sys.stderr)
        return 1 if self.failed or self.log.fault else 0


def identity(source):
    """A page as the log knows it: by its file from the root on, so that the page of another folder is another one."""
    return PLAIN.sub(lambda found: f"\\x{ord(found[0]):02x}", str(replace(source, file=os.path.abspath(source.file))))


class Log:
    """A line for each page: its name, what it is of, seconds, and what was done or is wrong. Later runs find the page's name in it."""

    def __init__(self, file):
        self.file = file
        self.fault = ""
        self.names, self.taken, self.last = {}, set(), {}
        self.opened = None

    def open(self):
        """Reads what earlier runs left; raises OSError."""
        self.opened = open(self.file, "a+", encoding="utf-8", errors="surrogateescape", buffering=1, newline="\n")
        self.opened.seek(0)
        for line in self.opened:
            name, _, rest = line.partition("\t")
            if name and rest.count("\t") >= 2:
                self.names[rest.partition("\t")[0]] = name
                self.taken.add(name)

    def is_free(self, name):
        """Neither is it another page's, nor the name of a document that some other program left here."""
        return name not in self.taken and not os.path.exists(os.path.join(os.path.dirname(self.file), name + ".hocr"))

    def name_for(self, source):
        """The name that the page has, or one that is free: its file's, with a number where that is taken."""
        known = identity(source)
        if known not in self.names:
            stem = name = source.stem()
            while not self.is_free(name):
                self.last[stem] = self.last.get(stem, 1) + 1
                name = f"{stem}.{self.last[stem]}"
            self.names[known] = name
            self.taken.add(name)
        return self.names[known]

    def add(self, *cells):
        """One more line; that the disk is full is told at the end."""
        try:
            self.opened.write("\t".join(PLAIN.sub(" ", cell) for cell in cells) + "\n")
        except OSError as fault:
            self.fault = fault.strerror

    def close(self):
        try:
            if self.opened:
                self.opened.close()
        except OSError as fault:
            self.fault = fault.strerror


def bar(count, quiet):
    """A bar with the time left, on a terminal."""
    if quiet or not sys.stderr.isatty():
        return Silent()
    try:
        from tqdm import tqdm
    except ModuleNotFoundError:
        return Silent()
    return tqdm(total=count, unit="page", smoothing=0.1)


class Silent:
    """A bar that shows nothing."""

    def __enter__(self):
        return self

    def __exit__(self, *_):
        return False

    def update(self, _):
        pass
