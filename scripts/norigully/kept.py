"""What an earlier run found out, kept by a sum of all that it rests on, as a kit may keep proofs: what has changed is
not there, and nothing goes stale. The kit's own folder is for what `rt` proved itself, so this is kept in the user's
cache, in folders that nobody else can read or write.
"""

import contextlib
import fcntl
import hashlib
import os
import pathlib
import shutil
import stat
import time

from norigully import entry

# Files that were not used for this many days are removed; so are, the longest unused first, those beyond the limit of a
# folder.
DAYS = 30
# What a killed run left of a file is removed after this many seconds.
LEFT_OVER = 24 * 3600
# The bytes of a sum behind an entry, and those that are read of one at a time.
SUM, PIECE = 64, 1 << 20


def folder(name):
    """The folder of one kind of entries; None where this user has no home. A relative XDG_CACHE_HOME counts as none."""
    for cache in (os.environ.get("XDG_CACHE_HOME", ""), os.path.expanduser("~/.cache")):
        if os.path.isabs(cache):
            return pathlib.Path(cache, "norigully", name)
    return None


def sum_of(*rests_on):
    """The name of what rests on these values."""
    return hashlib.sha256(repr(rests_on).encode()).hexdigest()


def is_own(seen):
    """Whether what `stat` saw is this user's, and nobody else could write it."""
    return seen.st_uid == os.geteuid() and not seen.st_mode & (stat.S_IWGRP | stat.S_IWOTH)


def is_guarded(folder):
    """Whether nobody but this user and root could put something else in the place of what is in this folder. A group of
    the owner's own number has no other member."""
    seen = folder.stat()
    others = stat.S_IWOTH | (0 if seen.st_gid == seen.st_uid else stat.S_IWGRP)
    return seen.st_uid in (0, os.geteuid()) and (seen.st_mode & stat.S_ISVTX or not seen.st_mode & others)


def is_whole(opened):
    """Whether an entry that is opened is this user's, and what it has in front of its sum is of that sum."""
    seen = os.fstat(opened)
    if not stat.S_ISREG(seen.st_mode) or not is_own(seen):
        return False
    found, rest = hashlib.sha256(), max(0, seen.st_size - SUM)
    with open(opened, "rb", buffering=0, closefd=False) as file:
        while rest and (piece := file.read(min(rest, PIECE))):
            found.update(piece)
            rest -= len(piece)
        return file.read(SUM) == found.hexdigest().encode()


class Kept:
    """The entries of a folder, and the most that it may have: bytes by sums, each with its own sum behind it. What
    cannot be read or is not whole is not there, and what cannot be written is found out anew. A folder that somebody
    else could write, or put another one in the place of, is not used."""

    def __init__(self, at, most):
        self.at, self.most = at, most

    @contextlib.contextmanager
    def opened(self):
        """The folder, which is made if it is missing, by its descriptor: it stays the one that was looked at, whatever
        comes into its place. None where it is not used."""
        opened = self.descriptor()
        try:
            yield None if opened is None else pathlib.Path(f"/proc/self/fd/{opened}")
        finally:
            if opened is not None:
                os.close(opened)

    def descriptor(self):
        with contextlib.suppress(OSError):
            for it in reversed([self.at, *self.at.parents] if self.at else []):
                it.mkdir(mode=0o700, exist_ok=True)
            at = self.at and self.at.parent.resolve() / self.at.name
            if at and all(map(is_guarded, at.parents)):
                opened = os.open(at, os.O_RDONLY | os.O_DIRECTORY | os.O_NOFOLLOW)
                if is_own(os.fstat(opened)):
                    os.fchmod(opened, 0o700)
                    return opened
                os.close(opened)
        return None

    def is_there(self):
        """Whether anything can be kept."""
        with self.opened() as at:
            return at is not None

    @contextlib.contextmanager
    def locked(self, wait=lambda: None):
        """Keeps other runs that lock the folder waiting. Where this one has to wait, it makes a call first."""
        with self.opened() as at:
            if at:
                try:
                    fcntl.flock(int(at.name), fcntl.LOCK_EX | fcntl.LOCK_NB)
                except BlockingIOError:
                    wait()
                    fcntl.flock(int(at.name), fcntl.LOCK_EX)
            yield

    def open(self, name):
        """The file of an entry, opened, or None. It counts as used now."""
        with self.opened() as at, contextlib.suppress(OSError):
            if at:
                # A pipe would be waited for.
                opened = os.open(at / name, os.O_RDONLY | os.O_NOFOLLOW | os.O_NONBLOCK)
                if is_whole(opened):
                    os.utime(opened)
                    return opened
                os.close(opened)
        return None

    def find(self, name):
        """The bytes of an entry, or None. It counts as used now."""
        opened = self.open(name)
        if opened is None:
            return None
        with open(opened, "rb") as file:
            file.seek(0)
            return file.read()[:-SUM]

    def keep_file(self, name, file):
        """Keeps a program. It runs with its sum behind it, too."""
        self.keep(name, file.read_bytes(), 0o700)

    def keep(self, name, found, mode=0o600):
        """Keeps these bytes. No other run meets half of them."""
        with self.opened() as at, contextlib.suppress(OSError):
            if at:
                with entry.folder(dir=at) as made:
                    new = pathlib.Path(made, name)
                    with open(new, "xb", opener=lambda path, flags: os.open(path, flags, mode)) as file:
                        file.write(found)
                        file.write(hashlib.sha256(found).hexdigest().encode())
                        file.flush()
                        os.fsync(file.fileno())
                    os.replace(new, at / name)

    def shrink(self):
        """Removes what was not used for long, and what a run left that was killed."""
        entries, now = [], time.time()
        with self.opened() as at, contextlib.suppress(OSError):
            for it in at.iterdir() if at else ():
                if it.is_file():
                    entries.append((it.stat().st_mtime, it))
                elif now - it.stat().st_mtime > LEFT_OVER:
                    shutil.rmtree(it, ignore_errors=True)
            entries.sort(reverse=True, key=lambda it: it[0])
            for place, (used, file) in enumerate(entries):
                if used < now - DAYS * 24 * 3600 or place >= self.most:
                    file.unlink(missing_ok=True)
