"""PostgreSQL: a table of 16 rows, read in five ways. usage: postgres.py PROGRAM FOLDER [RUNS]

It wants Debian's package postgresql. Each worker has a psql of its own.
"""
import glob

from harness import WORKERS, Board, Companion, need, output, record, scratch, server, tabulate

ROWS = 16  # 4 of each worker
EACH = ["begin", *(f"select value from board where k = {k}" for k in range(ROWS)), "commit"]
WAYS = {  # the isolation level of all transactions, and the statements of a view
    "one SELECT": ("read committed", ["select value from board order by k"]),
    "READ COMMITTED, a SELECT a row": ("read committed", EACH),
    "REPEATABLE READ, a SELECT a row": ("repeatable read", EACH),
    "SERIALIZABLE, a SELECT a row": ("serializable", EACH),
    "one SELECT over a VOLATILE function": ("read committed", [f"select cell(k) from generate_series(0, {ROWS - 1}) k"]),
}
TABLE = f"""drop table if exists board; create table board as select k, 0 as value from generate_series(0, {ROWS - 1}) k;
create or replace function cell(n int) returns int volatile language sql as 'select value from board where k = n'"""


class Session(Board):
    def __init__(self, psql, level, statements):
        self.statements, self.psql = statements, Companion(psql)
        self.close = self.psql.close
        self.ask(f"set default_transaction_isolation to '{level}'")

    def ask(self, *statements):
        answers = [line for statement in statements for line in self.psql.ask(f"{statement};\n\\echo")]
        if any("could not serialize" in line for line in answers):  # what failed is made again, within the same call
            return self.ask(*statements)
        return [int(line) for line in answers]

    def update(self, component, value):
        self.ask(f"update board set value = {value} where k = {component}")

    def view(self):
        return self.ask(*self.statements)


def main():
    initdb, postgres, psql = (need(name, *glob.glob("/usr/lib/postgresql/*/bin")) for name in ("initdb", "postgres", "psql"))
    with scratch("postgres") as folder:
        asked = [psql, "-qAtX", "-h", folder, "-U", "pg", "postgres"]

        def make_table():
            output([*asked, "-c", TABLE])

        def history(way, seed):
            make_table()
            return record([Session(asked, *WAYS[way]) for _ in range(WORKERS)], seed, ROWS)

        output([initdb, "-D", f"{folder}/data", "-U", "pg", "-A", "trust", "--no-sync"], "postgres")
        with server([postgres, "-D", f"{folder}/data", "-k", folder, "-h", "", "-F"], make_table, "postgres"):
            tabulate("PostgreSQL" + output([postgres, "--version"]).partition(")")[2], WAYS, history)


main()
