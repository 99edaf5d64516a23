"""What the tests of a connector's books share: copies of both files, what sqlite3 reads of them, and the command `ledger`."""
import contextlib
import os
import re
import shutil
import sqlite3
import subprocess

from play import PROGRAM


def files_of(path):
    """The files of books: the database, and its log if there is one."""
    return [it for it in (path, f"{path}-wal") if os.path.exists(it)]


def copied(path, to):
    """A copy of the books' files, as a backup has them: the database and its log."""
    for old in files_of(to):
        os.remove(old)
    for it in files_of(path):
        shutil.copyfile(it, to + it[len(path) :])
    return to


def with_sqlite(path, *statements):
    """What sqlite3 answers to each statement: its rows. It is closed before this returns, and then has no log."""
    with contextlib.closing(sqlite3.connect(path, isolation_level=None)) as database:
        database.text_factory = lambda text: text.decode(errors="replace")
        return [database.execute(it).fetchall() for it in statements]


def ledger(path, *words, **how):
    """How `ledger FILE ..` ended: 0, the number of its fault, or 2 for arguments that are not valid; and what it printed."""
    ran = subprocess.run([PROGRAM, "ledger", path, *words], stdin=subprocess.DEVNULL, capture_output=True, timeout=60, check=False, **how)
    fault = re.fullmatch(rb"fault (\d+)\n", ran.stderr)
    if ran.returncode == 1 and fault and not ran.stdout:
        return fault[1].decode(), ""
    well = ran.returncode == 2 or ran.returncode == 0 and not ran.stderr
    return str(ran.returncode) if well else f"WRONG {ran.returncode} {ran.stdout!r} {ran.stderr!r}", ran.stdout.decode(errors="replace")
