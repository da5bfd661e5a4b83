"""Which cases there are in tables and folders."""

import pathlib

from runs import Run
from tables import Misspelled, read_table

ROOT = pathlib.Path(__file__).resolve().parent.parent
COMMANDS = {"script.txt": "run", "schedule.txt": "weave"}
OF_A_CASE = {"config.json", "output.txt", "status", *COMMANDS}
# The cases of tools, which `tests/with_tools` runs.
OF_TOOLS = ROOT / "tests" / "tool_cases"


class Folder:
    """A folder that is one case: its files, its status and its output."""

    def __init__(self, path):
        self.place = str(path)
        self.files = {file.name: file.read_bytes() for file in path.iterdir()}
        if "output.txt" not in self.files or not COMMANDS.keys() & self.files.keys():
            raise Misspelled(f"{path}: has no output.txt, or neither a script.txt nor a schedule.txt")

    def run(self):
        """The run, and the answer that is wanted of it."""
        files = dict(self.files)
        wanted = files.pop("status", b"0\n") + files.pop("output.txt")
        script = next(name for name in COMMANDS if name in files)
        return Run(files, (COMMANDS[script], "config.json", script)), wanted


class Found:
    """The cases that were found, by table and folder, and what is of no known form."""

    def __init__(self):
        self.tables, self.faults = {}, []

    def add(self, path):
        """Adds a table, a folder that is a case, or all that is in a folder of these."""
        try:
            table, colon, line = str(path).rpartition(":")
            if colon and line.isdigit() and not path.exists():
                self.tables[str(path)] = [case_at(pathlib.Path(table), str(path))]
            elif not path.is_dir():
                self.tables[str(path)] = read_table(path)
            elif any(below.name in OF_A_CASE for below in path.iterdir()):
                self.tables[str(path)] = [Folder(path)]
            else:
                self.add_below(path)
        except (Misspelled, OSError, ValueError) as fault:
            self.faults.append(str(fault))

    def add_below(self, path):
        found = sorted(it for it in path.iterdir() if it.resolve() != OF_TOOLS)
        below = [it for it in found if it.is_dir() or it.suffix == ".txt"]
        if not below:
            raise Misspelled(f"{path}: has no case")
        for it in below:
            self.add(it)


def case_at(path, place):
    """The case of a table that begins at a place."""
    for case in read_table(path):
        if case.place == place:
            return case
    raise Misspelled(f"{place}: no case begins there")
