"""Runs of the program: what each is given, and what it answers."""

import contextlib
import itertools
import os
import pathlib
import resource
import signal
import subprocess
import tempfile
import threading
import time
from dataclasses import dataclass, replace

LONGEST_RUN = 60
QUIET = {"stdin": subprocess.DEVNULL, "stderr": subprocess.DEVNULL}


@dataclass(frozen=True)
class Run:
    """What a run is given: the files of its folder, and its words."""

    files: dict
    words: tuple
    # Names at which a folder stands.
    folders: tuple = ()
    # `kept`, `closed` or `full`. A kept output takes so many bytes as there is room for, if that is said.
    output: str = "kept"
    room: int | None = None
    # Whether the files are pipes, which tell when they are read.
    told: bool = False
    # The runs that it stands for: `cut of FILE`, `read` or `room`.
    each: str = ""


@dataclass(frozen=True)
class Ended:
    """What a run came to: lines with its status and, if that is told, the files that it read, and its text."""

    head: bytes
    text: bytes
    asked: list

    def answer(self):
        return self.head + self.text


def answer(program, run):
    """The answer of a run, or of all runs that it stands for, those with the same answer together."""
    if not run.each:
        return perform(program, run).answer()
    word, _, name = run.each.partition(" of ")
    runs = {"cut": cuts, "read": reads, "room": rooms}[word](program, run, name)
    text = b""
    for came, alike in itertools.groupby(runs, key=lambda pair: pair[1]):
        numbers = [number for number, _ in alike]
        text += f"{word} {numbers[0]} to {numbers[-1]}\n".encode() + came
    return text


def cuts(program, run, name):
    """The answers with each front of a file."""
    for length in range(len(run.files[name]) + 1):
        files = {**run.files, name: run.files[name][:length]}
        yield length, perform(program, replace(run, files=files)).answer()


def reads(program, run, _):
    """The answers with a folder in the place of each file that the run reads."""
    for number, name in enumerate(perform(program, replace(run, told=True)).asked, 1):
        yield number, perform(program, replace(run, folders=(name,))).answer()


def rooms(program, run, _):
    """The answers with each room for the output, without the text where that is the front that has room."""
    whole = perform(program, run).text
    for room in range(len(whole) + 1):
        ended = perform(program, replace(run, room=room))
        yield room, ended.head if ended.text == whole[:room] else ended.answer()


def perform(program, run):
    """Runs the program once, in a new folder."""
    with tempfile.TemporaryDirectory(prefix="mon_") as name:
        folder, output = pathlib.Path(name, "files"), pathlib.Path(name, "output")
        asked, over = [], threading.Event()
        teller = threading.Thread(target=tell, args=(folder, lay_out(folder, run), asked, over))
        limit = None if run.room is None else lambda: limit_output(run.room)
        with opened(output, run.output) as taken:
            process = subprocess.Popen([program, *run.words], cwd=folder, stdout=taken, preexec_fn=limit, **QUIET)
        teller.start()
        try:
            status = process.wait(LONGEST_RUN)
        except subprocess.TimeoutExpired:
            process.kill()
            status = f"{process.wait()}, not ended after {LONGEST_RUN} seconds"
        over.set()
        teller.join()
        head = [str(status), " ".join(["asked", *asked])] if run.told else [str(status)]
        text = output.read_bytes() if run.output == "kept" else b""
        return Ended("".join(f"{line}\n" for line in head).encode(), text, asked)


def lay_out(folder, run):
    """Makes the folder of a run, and returns the contents of the pipes in it."""
    folder.mkdir()
    for name in run.folders:
        (folder / name).mkdir()
    files = {name: content for name, content in run.files.items() if name not in run.folders}
    for name, content in files.items():
        if run.told:
            os.mkfifo(folder / name)
        else:
            (folder / name).write_bytes(content)
    return files if run.told else {}


def opened(path, output):
    """What a run writes to."""
    if output != "closed":
        return open("/dev/full" if output == "full" else path, "wb")
    reading, writing = os.pipe()
    os.close(reading)
    return os.fdopen(writing, "wb")


def limit_output(room):
    """Lets the output of this process fail behind so many bytes."""
    signal.signal(signal.SIGXFSZ, signal.SIG_IGN)
    resource.setrlimit(resource.RLIMIT_FSIZE, (room, room))


def tell(folder, pipes, asked, over):
    """Gives each pipe its content once it is opened, and notes its name."""
    left = dict(pipes)
    while left and not over.is_set():
        for name in list(left):
            # A pipe that nobody reads cannot be opened.
            with contextlib.suppress(OSError):
                pipe = os.open(folder / name, os.O_WRONLY | os.O_NONBLOCK)
                asked.append(name)
                give(pipe, left.pop(name))
        time.sleep(0.0005)


def give(pipe, content):
    """Writes a content in two parts, as long as it is read."""
    os.set_blocking(pipe, True)
    with os.fdopen(pipe, "wb") as writing:
        writing.write(content[: len(content) // 2])
        writing.flush()
        time.sleep(0.001)
        writing.write(content[len(content) // 2 :])


def can_start(program):
    """Whether the program can be started; tells where it cannot."""
    try:
        subprocess.run([program], stdout=subprocess.DEVNULL, timeout=LONGEST_RUN, **QUIET)
    except OSError as error:
        print(f"{program}: cannot be started ({error.strerror})")
        return False
    return True
