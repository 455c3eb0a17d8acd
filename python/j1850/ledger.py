"""A table that is written bit by bit, so that a command that was stopped can go on where it stood.

Until it is whole the table stands in FILE.part. FILE.journal says what it is a table of, and after each piece how many recordings are
in it and how many bytes they take. A piece counts once its line of the journal is there: what stands after it in FILE.part is cut
off when the command begins again.
"""
import os

from .trouble import Trouble


class Ledger:
    """The table of a plan, which is a text that no other list of recordings has."""

    def __init__(self, path, plan):
        self.path, self.part, self.journal = path, path + ".part", path + ".journal"
        self.plan = plan + "\n"
        self.count = self.size = 0

    def finished(self):
        """How many recordings the table has from before, and how many bytes; none where nothing was begun."""
        try:
            with open(self.journal, encoding="ascii", errors="replace", newline="\n") as file:
                first, *lines = file.read().split("\n")[:-1] or [""]
        except FileNotFoundError:
            return 0, 0
        if first + "\n" != self.plan:
            raise Trouble(f"{self.part} is a table of other recordings, or in another form: move it and {self.journal} away to begin anew")
        count, size = lines[-1].split() if lines else (0, 0)
        return int(count), int(size)

    def begin(self, heading):
        """Opens the table, with its heading where nothing was begun. Answers how many recordings are in it."""
        try:
            self.count, self.size = self.finished()
            if self.size == 0:
                with open(self.part, "wb") as table, open(self.journal, "w", encoding="ascii", newline="\n") as journal:
                    table.write(heading)
                    journal.write(self.plan)
                self.size = len(heading)
            self.table = open(self.part, "r+b")
            self.table.truncate(self.size)
            self.table.seek(self.size)
            self.lines = open(self.journal, "a", encoding="ascii", newline="\n")
        except OSError as error:
            raise Trouble(f"{error.filename}: {error.strerror}") from error
        return self.count

    def add(self, piece, recordings):
        """Adds a piece of so many recordings."""
        self.table.write(piece)
        self.table.flush()
        self.count, self.size = self.count + recordings, self.size + len(piece)
        self.lines.write(f"{self.count} {self.size}\n")
        self.lines.flush()

    def close(self):
        """Leaves the table as it is, for another time."""
        self.table.close()
        self.lines.close()

    def end(self):
        """The table is whole, and gets its name."""
        self.close()
        os.replace(self.part, self.path)
        os.remove(self.journal)
