"""A session that lasts: a file of the lines that were asked, each written through before its answer is shown, and asked again at the next start."""
import errno
import fcntl
import os
import stat


class Session:
    """The open file of a session. `lines` are those that it had at the start; `told` says what was mended then, if anything was."""

    def __init__(self, path):
        """Raises OSError where the file cannot be read and written, or another session has it."""
        self.path, self.is_behind = path, False
        self.file = os.open(path, os.O_RDWR | os.O_CREAT | os.O_APPEND | os.O_CLOEXEC, 0o666)
        if not stat.S_ISREG(os.fstat(self.file).st_mode):
            raise OSError(errno.EINVAL, "it is no file of lines", path)
        try:
            fcntl.flock(self.file, fcntl.LOCK_EX | fcntl.LOCK_NB)
        except BlockingIOError:
            raise OSError(errno.EWOULDBLOCK, "another session has it", path) from None
        self.mend()
        self.write_through()

    def mend(self):
        """Reads the lines. What stands behind the last end of a line was never answered: it is cut off."""
        with open(self.path, "rb") as it:
            *lines, half = it.read().split(b"\n")
        self.lines = [line.decode("utf-8", "surrogateescape") for line in lines]
        self.told = None
        if half:
            text = half.decode("utf-8", "replace")
            self.told = f'{self.path}: half a last line, which was not answered, is cut off: "{text}"'
            os.ftruncate(self.file, os.lseek(self.file, 0, os.SEEK_END) - len(half))

    def append(self, line):
        """Writes the line behind the others; where that fails nothing of it stays, and OSError is raised."""
        size, data = os.lseek(self.file, 0, os.SEEK_END), line.encode("utf-8", "surrogateescape") + b"\n"
        try:
            while data:
                data = data[os.write(self.file, data) :]
        except OSError:
            os.ftruncate(self.file, size)
            raise
        self.is_behind = True

    def sync(self):
        """Brings the lines that were written since the last time to the disk."""
        if self.is_behind:
            try:
                os.fsync(self.file)
            except OSError as fault:
                raise OSError(fault.errno, fault.strerror, self.path) from None
            self.is_behind = False

    def write_through(self):
        """Brings the file with its name to the disk."""
        os.fsync(self.file)
        folder = os.open(os.path.dirname(os.path.realpath(self.path)), os.O_RDONLY)
        try:
            os.fsync(folder)
        finally:
            os.close(folder)
