"""The program: finding it, and asking it."""
import os
import pathlib
import shutil
import subprocess

from .files import MISSING, Refusal

HERE = pathlib.Path(__file__).resolve().parent.parent


def find_program(given=None):
    """The path of the program: what is given, else $RABIT, else `rabit` beside the tool, in a checkout or on the path.

    Refused with status 9 where none of them can be run."""
    named = given or os.environ.get("RABIT")
    if named:
        found = shutil.which(named)
        if found:
            return os.path.abspath(found)
        raise Refusal(
            f"{named}: no program that can be run; it is named by {'--program' if given else 'RABIT'}", MISSING
        )
    beside = [HERE / "rabit", HERE.parent / "rabit", HERE.parent.parent / "bin" / "rabit"]
    for path in beside:
        if path.is_file() and os.access(str(path), os.X_OK):
            return str(path)
    found = shutil.which("rabit")
    if not found:
        raise Refusal("rabit is not found: name it by --program or by RABIT", MISSING)
    return os.path.abspath(found)


def is_wrapper(program):
    """Whether this is a checkout's or an installation's `rabit`, which can tell the program that it runs."""
    return (program.parent / "crates.txt").is_file() or (program.resolve().parent / "rabit-help").is_file()


def find_built():
    """As `find_program`, but the program itself where that is a wrapper; None where there is none that is built."""
    try:
        program = pathlib.Path(find_program())
    except Refusal:
        return None
    if not is_wrapper(program):
        return str(program)
    kept = {**os.environ, "RABIT_NO_BUILD": "1"}
    told = subprocess.run(
        [str(program), "--program"], env=kept, stdin=subprocess.DEVNULL, stdout=subprocess.PIPE, stderr=subprocess.DEVNULL
    )
    return told.stdout.decode().rstrip("\n") if told.returncode == 0 else None


def ready_program(given=None, wrapped=False):
    """As `find_program`; the program itself where that is a wrapper, unless `wrapped`. A checkout's is built first
    where there is none of its sources.

    Refused with status 9."""
    program = pathlib.Path(find_program(given))
    if not is_wrapper(program):
        return str(program)
    status, told = ask(str(program), ["--program"])
    if status != 0:
        raise Refusal(f"{program}: the program is not built", MISSING)
    return str(program) if wrapped else told.rstrip("\n")


def ask(program, words, seconds=None):
    """The status, and the printed text, of the program on these words; what it says on standard error goes there.

    Refused with status 9 where it cannot be run. Raises subprocess.TimeoutExpired after so many seconds."""
    try:
        done = subprocess.run(
            [program, *words], stdin=subprocess.DEVNULL, stdout=subprocess.PIPE, timeout=seconds, check=False
        )
    except OSError as error:
        raise Refusal(f"{program}: {error.strerror}", MISSING) from None
    return done.returncode, done.stdout.decode("utf-8", "surrogateescape")
