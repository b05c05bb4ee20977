"""Files that get their name when they are whole and on the disk. Until then each is a temporary file in the same folder,
`part.rnxcmp-file.HEX`. An error or a signal removes it; a kill or a power cut leaves it."""

from __future__ import annotations

import ctypes
import errno
import os
from contextlib import contextmanager, suppress

from ._calls import RnxcmpError
from ._names import quoted
from ._packed import pieces_of

TYPE_CHECKING = False
if TYPE_CHECKING:
    from typing import Iterator, Set, Tuple

_NO_LINKS = (errno.EPERM, errno.EOPNOTSUPP, errno.ENOSYS, errno.EMLINK)
_NO_SUCH_RENAME = (errno.EINVAL, errno.ENOSYS, errno.EOPNOTSUPP)
_NO_LIST = (errno.ENODATA, errno.EOPNOTSUPP, errno.ENOSYS)
_NOREPLACE = 1  # a flag of renameat2
FOLDER = os.O_RDONLY | os.O_DIRECTORY | os.O_CLOEXEC
_unfinished: Set[Part] = set()


class FileError(RnxcmpError):
    """An error because of which a file has no output."""


class CannotName(FileError):
    """The disk has no call that gives a file a name and replaces nothing."""


@contextmanager
def saying(text: str) -> Iterator[None]:
    """Turns an error of the system into a `FileError` that begins with `text`, unless it says that a file exists."""
    try:
        yield
    except FileExistsError:
        raise
    except OSError as error:
        raise FileError(f"{text}: {error.strerror or error}") from error


def identity_of(status: os.stat_result) -> Tuple[int, ...]:
    """Returns device, inode, size and both times, which differ if a file was changed or replaced."""
    return (status.st_dev, status.st_ino, status.st_size, status.st_mtime_ns, status.st_ctime_ns)


def digest_of(file: int) -> bytes:
    """Returns the SHA-256 of all bytes of an open file."""
    from hashlib import sha256

    digest = sha256()
    os.lseek(file, 0, os.SEEK_SET)
    for piece in pieces_of(file):
        digest.update(piece)
    return digest.digest()


def has_list(file: int) -> bool:
    """Returns whether an open file has, or may have, an access control list. Some Pythons lack os.listxattr."""
    library = ctypes.CDLL(None, use_errno=True)
    return library.fgetxattr(file, b"system.posix_acl_access", None, 0) >= 0 or ctypes.get_errno() not in _NO_LIST


def sync_folder(folder: int) -> None:
    """Flushes the names in an open folder to the disk; some disks do so only by themselves."""
    try:
        os.fsync(folder)
    except OSError as error:
        if error.errno != errno.EINVAL:
            raise


def disown_unfinished() -> None:
    """Leaves the temporary files so far to the process that this one was forked from."""
    _unfinished.clear()


def remove_unfinished() -> None:
    """Removes all temporary files of this process."""
    for part in list(_unfinished):
        part.remove()


def make_folder(name: str) -> None:
    """Makes a folder and the folders above it, unless they exist, and flushes their names to the disk."""
    if not name or os.path.isdir(name):
        return
    above = os.path.dirname(name)
    make_folder(above)
    with suppress(FileExistsError):
        os.mkdir(name)
    folder = os.open(above or ".", FOLDER)
    try:
        sync_folder(folder)
    finally:
        os.close(folder)


def _give_rights(file: int, like: os.stat_result, to_owner_alone: bool) -> bool:
    """Gives a file the owner, group and mode of another, as far as the disk allows; returns whether more users may read it than that one.
    If the group can't be given, group and others get the rights that both had."""
    mode = like.st_mode & 0o777
    for owner in (like.st_uid, -1):
        try:
            os.fchown(file, owner, like.st_gid)
            break
        except OSError:
            mode |= 0o400  # the owner is this user, who could read the input
    else:
        common = mode >> 3 & mode & 0o007
        mode = mode & 0o700 | common << 3 | common
    if to_owner_alone:
        mode &= 0o700
    with suppress(OSError):
        os.fchmod(file, mode)
    return bool(os.fstat(file).st_mode & 0o044 & ~mode)


class Part:
    """A temporary file that gets the name `place`. Who calls `begin` also calls `remove`, even after an error."""

    def __init__(self, place: str) -> None:
        self._where = quoted(place)
        self._home, self._place = os.path.split(place)
        self._name = f"part.rnxcmp-file.{os.urandom(8).hex()}"
        self._folder = self.file = -1

    def begin(self) -> None:
        """Creates the file, empty."""
        with saying(f"cannot write next to {self._where}"):
            self._folder = os.open(self._home or ".", FOLDER)
            _unfinished.add(self)
            self.file = os.open(self._name, os.O_RDWR | os.O_CREAT | os.O_EXCL | os.O_CLOEXEC, 0o600, dir_fd=self._folder)

    def write(self, data: bytes) -> None:
        """Writes all of `data`."""
        view = memoryview(data)
        with saying(f"cannot write {self._where}"):
            while view:
                view = view[os.write(self.file, view) :]

    def flush(self) -> None:
        """Flushes the bytes to the disk, and drops the file from the cache, so that it is read back from the disk."""
        with saying(f"cannot flush {self._where} to the disk"):
            os.fsync(self.file)
            os.posix_fadvise(self.file, 0, 0, os.POSIX_FADV_DONTNEED)

    def resemble(self, like: os.stat_result, is_listed: bool) -> bool:
        """Gives it owner, mode and times of another file, as far as the disk allows; returns whether more users may read it than that file.
        `is_listed`: whether that file has an access control list, which isn't copied."""
        opens = _give_rights(self.file, like, is_listed or has_list(self.file))
        with suppress(OSError):
            os.utime(self.file, ns=(like.st_atime_ns, like.st_mtime_ns))
        return opens

    def put(self, force: bool) -> None:
        """Gives the file its name, over an old file if `force` says so, and flushes the folder to the disk. Otherwise raises
        FileExistsError if the name exists."""
        with saying(f"cannot put {self._where} into place"):
            self._close_file()  # network disks keep a file that is open when its name is removed
            is_linked = not force and self._is_linked()
            if force:
                os.rename(self._name, self._place, src_dir_fd=self._folder, dst_dir_fd=self._folder)
            elif not is_linked:
                self._rename_where_nothing_is()
        with saying(f"cannot remove {self._name} next to {self._where}"):
            if is_linked:
                os.unlink(self._name, dir_fd=self._folder)
        with saying(f"cannot flush the name {self._where} to the disk"):
            sync_folder(self._folder)

    def _is_linked(self) -> bool:
        """Links the file to its name; returns False if the disk has no links."""
        try:
            os.link(self._name, self._place, src_dir_fd=self._folder, dst_dir_fd=self._folder, follow_symlinks=False)
        except OSError as error:
            if error.errno in _NO_LINKS:
                return False
            raise
        return True

    def _rename_where_nothing_is(self) -> None:
        """Renames it by renameat2, which replaces nothing."""
        call = getattr(ctypes.CDLL(None, use_errno=True), "renameat2", None)
        names = (self._folder, os.fsencode(self._name), self._folder, os.fsencode(self._place))
        number = errno.ENOSYS if call is None else ctypes.get_errno() if call(*names, _NOREPLACE) else 0
        if number in _NO_SUCH_RENAME:
            raise CannotName(f"cannot put {self._where} into place: this disk can't name a file without replacing; -f renames over the old file")
        if number:
            raise OSError(number, os.strerror(number))

    def _close_file(self) -> None:
        file, self.file = self.file, -1
        if file >= 0:
            os.close(file)

    def remove(self) -> None:
        """Closes the file, and removes it unless it got its name."""
        if self in _unfinished:
            for call in (self._close_file, lambda: os.unlink(self._name, dir_fd=self._folder), lambda: os.close(self._folder)):
                with suppress(OSError):
                    call()
            _unfinished.discard(self)
