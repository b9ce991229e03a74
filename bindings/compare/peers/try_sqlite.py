"""try_sqlite.py: a transaction of SQLite, with savepoints as the steps in it, on a table of names
and bytes."""
import sqlite3

import asked


class Savepoint:
    """A step: the transaction of a connection, or a savepoint in it."""

    def __init__(self, connection, depth=0):
        self.connection = connection
        self.depth = depth
        self.say(f"SAVEPOINT step{depth}" if depth else "BEGIN")

    def say(self, *words):
        try:
            return self.connection.execute(*words)
        except sqlite3.OperationalError as error:
            raise asked.Blocked(f"{error}") from error

    def begin(self):
        return Savepoint(self.connection, self.depth + 1)

    def make(self, name, data):
        self.say("REPLACE INTO file VALUES (?, ?)", (name, data))

    def names(self):
        return names_of(self.connection)

    def keep(self):
        self.say(f"RELEASE step{self.depth}" if self.depth else "COMMIT")

    def undo(self):
        self.say(f"ROLLBACK TO step{self.depth}" if self.depth else "ROLLBACK")


def names_of(connection):
    return [name for name, in connection.execute("SELECT name FROM file ORDER BY name")]


class Database(asked.Peer):
    """The database. Each step that is in no other has a connection of its own."""

    def __init__(self, top):
        super().__init__(top)
        with self.connect() as connection:
            connection.execute("PRAGMA journal_mode = WAL")
            columns = "name TEXT PRIMARY KEY, data BLOB"
            connection.execute(f"CREATE TABLE IF NOT EXISTS file ({columns})")

    def connect(self):
        return sqlite3.connect(self.top / "base", timeout=asked.SECONDS, isolation_level=None)

    def begin(self):
        return Savepoint(self.connect())

    def names(self):
        return names_of(self.connect())

    def answer_seen(self):
        return asked.seen_by_library(self, lambda: Database(self.top))


if __name__ == "__main__":
    asked.main(Database, sqlite3.sqlite_version)
