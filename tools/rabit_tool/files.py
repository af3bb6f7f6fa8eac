"""Files, and the one exception of the tool."""
import os
import stat
import sys
import tempfile

USAGE, TEXT, CERTIFICATE, READ, WRITE, MISSING = 3, 4, 5, 6, 7, 9
AUTOMATON_BYTES, CERTIFICATE_BYTES = 1 << 26, 1 << 30


class Refusal(Exception):
    """What is printed on standard error, and the status: 3 words that are no command, 4 a fault of an automaton's text,
    5 of a certificate, 6 a file that cannot be read, 7 one that cannot be written, 9 a program that is not there."""

    def __init__(self, text, status):
        super().__init__(text)
        self.text, self.status = text, status


def decoded(data):
    """Bytes as text; bytes that are not UTF-8 come back whole by `encoded`."""
    return data.decode("utf-8", "surrogateescape")


def encoded(text):
    """The bytes of a text that `decoded` gave, or of any other."""
    return text.encode("utf-8", "surrogateescape")


def read_file(name, most=AUTOMATON_BYTES):
    """The bytes of the file. Refused with status 6 where it cannot be read, with 4 where it has more than `most`."""
    try:
        with open(name, "rb") as file:
            data = file.read(most + 1)
    except (OSError, ValueError) as error:
        raise Refusal(f"{name}: {getattr(error, 'strerror', None) or error}", READ) from None
    if len(data) > most:
        raise Refusal(f"{name}: Long: more than {most >> 20} MiB", TEXT)
    return data


def read_input(most=AUTOMATON_BYTES):
    """The bytes of the standard input; refused as by `read_file`."""
    if sys.stdin is None:  # it was closed before the start
        raise Refusal("-: Bad file descriptor", READ)
    return read_file(sys.stdin.fileno(), most)


def write_file(name, data, sources=()):
    """Writes the bytes into the file, whole or not at all, or to standard output where the name is None.

    Refused with status 7, also where the file is one of the sources."""
    try:
        if name in (None, "/dev/stdout"):
            if sys.stdout is None:  # it was closed before the start
                raise OSError(9, "Bad file descriptor")
            sys.stdout.buffer.write(data)
            sys.stdout.flush()
            return
        for source in sources:
            if os.path.exists(source) and os.path.exists(name) and os.path.samefile(source, name):
                raise Refusal(f"{name}: is read too, and would be lost", WRITE)
        if name.startswith("/dev/") or os.path.exists(name) and not stat.S_ISREG(os.stat(name).st_mode):
            with open(name, "wb") as file:
                file.write(data)
            return
        replace_file(os.path.realpath(name), data)
    except BrokenPipeError:
        raise
    except (OSError, ValueError) as error:
        raise Refusal(f"{name or 'the output'}: {getattr(error, 'strerror', None) or error}", WRITE) from None


def replace_file(name, data):
    """Puts the bytes in the place of the regular file, or of none, by a new file beside it. Raises OSError."""
    if os.path.exists(name) and not os.access(name, os.W_OK):
        raise PermissionError(13, "Permission denied")
    handle, beside = tempfile.mkstemp(dir=os.path.dirname(name) or ".", prefix=".rabit-tool-")
    try:
        with os.fdopen(handle, "wb") as file:
            file.write(data)
        if os.path.exists(name):
            mode = stat.S_IMODE(os.stat(name).st_mode)
        else:
            mask = os.umask(0)
            os.umask(mask)
            mode = 0o666 & ~mask
        os.chmod(beside, mode)
        os.replace(beside, name)
    except BaseException:
        os.unlink(beside)
        raise
