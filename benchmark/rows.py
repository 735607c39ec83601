"""What benchmark/run printed: the machine's lines, and for each row its figures of all runs."""
import sys


class Rows:
    """Keys are name, P, N and list; each has a (reference, library, ratio) for each run."""

    def __init__(self, lines):
        self.notes = []
        self.figures = {}
        for line in lines:
            if line.startswith("#"):
                self.notes.append(line[1:].strip())
            elif line.strip():
                self.add(line.split())

    def add(self, words):
        name, sizes, figures = words[0], map(int, words[1:4]), map(float, words[4:7])
        self.figures.setdefault((name, *sizes), []).append(tuple(figures))

    def runs(self):
        return len(next(iter(self.figures.values())))

    def machine(self):
        """The lines of benchmark/machine before and after the runs, each once."""
        lines = [note for note in self.notes if note.startswith(("processor:", "compilers:"))]
        return list(dict.fromkeys(lines))

    def quickest(self, *key):
        """The least times of the reference and of the library over all runs."""
        runs = self.figures[key]
        return min(run[0] for run in runs), min(run[1] for run in runs)


def read():
    """The rows of the file that the command line names, or of the standard input."""
    if len(sys.argv) > 1:
        with open(sys.argv[1], encoding="utf-8") as file:
            return Rows(file)
    return Rows(sys.stdin)
