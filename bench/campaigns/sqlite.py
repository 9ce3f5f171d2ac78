"""SQLite as a guest: what a crash leaves of a database that it keeps on a volume by its own journals.

The guest runs transactions, each of which changes all rows, and says each one that is committed. From each volume that a crash may
leave the guest itself has to open an intact database with the rows after a first part of the transactions, all those among them that
were said.
"""
import crashes
import failing
import steps
from common import Wrong, answer, succeeded, written

# The journal's mode, `synchronous`, and how many of the last transactions that were said may be lost. By deleting the journal SQLite
# commits, and only with `extra` it syncs that.
JOURNALS = [("delete", "extra", 0), ("truncate", "full", 0), ("persist", "full", 0), ("delete", "full", 1)]
ROWS = 6
LAYOUT = "pragma page_size=1024; create table t(k integer primary key, last integer, text text); create index of_text on t(text);"
QUESTION = b"pragma integrity_check; select k, last, text from t order by k;"


def text_of(k):
    return chr(97 + k * 7 % 26) * 300 + str(k)


def transaction(n):
    """Adds a row, changes all, and takes away the oldest where there are more than ROWS."""
    changes = f"insert into t values({n}, 0, '{text_of(n)}'); update t set last = {n}; delete from t where k = {n - ROWS};"
    return f"begin; {changes} commit; select 'committed';\n"


def rows_after(n):
    """What the guest prints of an intact database after the first n transactions."""
    rows = (f"{k}|{n}|{text_of(k)}\n" for k in range(max(1, n - ROWS + 1), n + 1))
    return "ok\n" + "".join(rows)


class Database:
    """A database on a volume, with one kind of journal."""

    def __init__(self, setting, journal, synchronous, lost):
        self.setting, self.journal, self.synchronous, self.lost = setting, journal, synchronous, lost
        self.name, self.count = f"{journal}, {synchronous}", 2 if setting.is_quick else 10
        # of the same bytes in each run
        self.random = written(f"{setting.room}/random", bytes(4096))
        self.states = {rows_after(n): n for n in range(self.count + 1)}
        # how many transactions are in a volume's files, once the guest has told
        self.known = {}

    def words(self, volume):
        options = ["--fuel", "100000000000", "--random", self.random, "--volume", volume]
        return ["run", *options, "--", self.setting.sqlite, "-batch", "-bail", "-vfs", "unix-none", "it.db"]

    def asked(self, volume, text):
        """What the guest prints."""
        status, out, said = answer(self.setting, self.words(volume), text, 60)
        if status:
            raise Wrong(f"status {status}, {out[-200:]!r}, {said[-200:]!r}")
        return out.decode()

    def done(self, volume):
        """How many transactions are in the volume. The same files have the same answer, so the guest is asked once."""
        files = tuple(steps.tree_of(crashes.read(volume)).items())
        if files not in self.known:
            found = self.asked(volume, QUESTION)
            if found not in self.states:
                raise Wrong(f"no first part of the transactions: {found[:200]!r}")
            self.known[files] = self.states[found]
        return self.known[files]

    def right(self, volume, said):
        succeeded(self.setting, "check", volume)
        done, committed = self.done(volume), said.count(b"committed")
        if not committed - self.lost <= done <= committed + 1:
            raise Wrong(f"{done} transactions, and {committed} were said to be committed")

    def scene(self, setting):
        path = crashes.fresh(setting, str(steps.SECTORS), str(steps.SLOTS))
        self.asked(path, LAYOUT.encode())
        text = f"pragma synchronous={self.synchronous}; pragma journal_mode={self.journal};\n"
        text += "".join(transaction(n + 1) for n in range(self.count))
        return crashes.Scene(self.name, crashes.read(path), self.words, self.right, f"{self.count} transactions", text.encode())


def told(trace, place):
    """However SQLite takes the errors, the volume has failed."""
    return (trace.status, trace.said) == failing.FAULT if place == "opening" else trace.status == 123 and trace.said.endswith("sandbox: fault 33\n")


def each_journal(setting, tries):
    """A row: what is tried with each journal, and how often."""
    databases = [Database(setting, *it) for it in JOURNALS[:: 2 if setting.is_quick else 1]]
    tried = {it.name: tries(it) for it in databases}
    text = "; ".join(f"{name} {count:,}" for name, count in tried.items())
    return sum(tried.values()), f"{databases[0].count} transactions; {text}"


def writes(setting):
    """Crash images of the guest's run."""
    most = 2 if setting.is_quick else 1024
    return each_journal(setting, lambda database: crashes.crashed(setting, database.scene(setting), most)[0])


def operations(setting):
    """Every fifth write or sync of the volume fails in the guest's run: of both each kind of error."""
    def tries(database):
        it = failing.Failing(setting, database.scene, told)
        turns = failing.places(setting, len(it.at))[:: 1 if setting.is_quick else 5]
        return sum(1 for _ in setting.each(it.one, turns))

    return each_journal(setting, tries)
