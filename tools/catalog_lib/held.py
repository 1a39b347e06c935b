"""The lines that a run is made of, which it reads several times."""
import hashlib
import os
import stat
import sys
import tempfile

from catalog_lib.lines import Refused

# as many bytes of a file are read at once
PART = 1 << 20


class Held:
    """The file of a name, or a copy without a name of what can be read only once. `hash` is that of its bytes."""

    def __init__(self, name, stack):
        """Reads the file once. Without a name it is standard input. `stack` closes it in the end."""
        if not name and not sys.stdin:
            raise Refused("standard input is closed")
        self.name = name or "standard input"
        try:
            source = stack.enter_context(open(name, "rb", PART)) if name else sys.stdin.buffer
            is_file = name and stat.S_ISREG(os.fstat(source.fileno()).st_mode)
            self.file = source if is_file else stack.enter_context(tempfile.TemporaryFile(buffering=PART))
            self.state = state_of(source) if is_file else None
            self.hash = self.read(source)
            self.file.seek(0)
        except OSError as error:
            raise Refused(f"{self.name}: {error.strerror}") from None

    def read(self, source):
        """Returns the hash of a source, of which it takes a copy unless that is the file itself."""
        found = hashlib.blake2b()
        while part := source.read(PART):
            found.update(part)
            if source is not self.file:
                self.file.write(part)
        return found.hexdigest()

    def check(self):
        """Refuses a file to which somebody wrote meanwhile."""
        if self.state and state_of(self.file) != self.state:
            raise Refused(f"{self.name}: it changed while it was read")


def state_of(file):
    """Returns what is another once somebody wrote to a file."""
    found = os.fstat(file.fileno())
    return found.st_size, found.st_mtime_ns
