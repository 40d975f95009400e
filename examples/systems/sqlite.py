"""SQLite: one table, a row for each worker, read in three ways with each journal. usage: sqlite.py PROGRAM FOLDER [RUNS]"""
import contextlib
import sqlite3

from harness import WORKERS, Board, record, scratch, tabulate

ONE, AUTOCOMMIT, TRANSACTION = "one SELECT", "a SELECT a row, autocommit", "a SELECT a row, in one transaction"
JOURNALS = {"WAL": "wal", "rollback journal": "delete"}
WAYS = {f"{how}, {journal}": (how, journal) for journal in JOURNALS for how in (ONE, AUTOCOMMIT, TRANSACTION)}


class Connection(Board):
    def __init__(self, folder, how, journal):
        self.how, self.sql = how, sqlite3.connect(f"{folder}/board.db", timeout=60, isolation_level=None, check_same_thread=False)
        self.ask(f"pragma journal_mode = {JOURNALS[journal]}")
        self.ask("pragma synchronous = off")
        self.close = self.sql.close

    def ask(self, statement):
        """The first column of the answer."""
        return [row[0] for row in self.sql.execute(statement).fetchall()]

    def rows(self):
        values = []
        for k in range(WORKERS):
            values += self.ask(f"select value from board where worker = {k}")
            self.pause()
        return values

    def update(self, component, value):
        self.ask(f"update board set value = {value} where worker = {component}")

    def view(self):
        if self.how == ONE:
            return self.ask("select value from board order by worker")
        if self.how == AUTOCOMMIT:
            return self.rows()
        self.ask("begin")
        values = self.rows()
        self.ask("commit")
        return values


@contextlib.contextmanager
def boards(way):
    """A new file, and a board for each worker."""
    with scratch() as folder:
        opened = [Connection(folder, *WAYS[way]) for _ in range(WORKERS)]
        opened[0].ask("create table board (worker integer primary key, value integer)")
        opened[0].ask(f"insert into board values {', '.join(f'({k}, 0)' for k in range(WORKERS))}")
        yield opened


def history(way, seed):
    with boards(way) as opened:
        return record(opened, seed)


if __name__ == "__main__":
    tabulate(f"SQLite {sqlite3.sqlite_version}", WAYS, history)
