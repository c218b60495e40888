"""How a tool ends: with a status, or with one line that says why not."""
import os
import sys
from collections.abc import Callable, Iterable, Iterator
from contextlib import contextmanager
from typing import IO, NoReturn

from rendapil.files import escape_output, shown, unforeseen
from rendapil.sayings import Fault


def fail(name: str, text: str, status: int = 1) -> NoReturn:
    """Ends a tool with a line, in place of how far the reading is. It stands behind what was told before."""
    try:
        sys.stdout.flush()
    except (OSError, ValueError):
        sys.stdout = open(os.devnull, "w")  # nothing more goes there
    print(("\033[K" if sys.stderr.isatty() else "") + f"rendapil {name}: {text}", file=sys.stderr)
    sys.exit(status)


def ended(name: str, work: Callable[[], int], status: int = 1, file: str = "standard output") -> int:
    """Does a tool's work, and gives its status. Where that fails, it ends with a line and the other status. `file` is what a fault of the system
    may mean that names none."""
    escape_output()
    try:
        done = work()
        sys.stdout.flush()
        return done
    except (Fault, ValueError) as error:
        fail(name, shown(str(error)), status)
    except OSError as error:
        sys.stdout = open(os.devnull, "w")  # nothing more goes there
        fail(name, f"{shown(str(error.filename or file))}: {error.strerror or shown(str(error))}", status)
    except KeyboardInterrupt:
        sys.exit(130)
    except MemoryError:
        fail(name, "out of memory", status)
    except Exception as error:  # noqa: BLE001: no traceback has what stands in a capture
        fail(name, unforeseen(error), status)


def refuse_overwriting(outputs: Iterable[str], inputs: Iterable[str]) -> None:
    """Ends where a file that is to be written is one that is read."""
    read = list(inputs)
    for output in outputs:
        if os.path.isfile(output) and any(os.path.exists(one) and os.path.samefile(output, one) for one in read):
            raise Fault(f"{shown(output)} is a file that is read, and would be overwritten")


@contextmanager
def written(path: str) -> Iterator[IO[bytes]]:
    """A file that takes the place of what was there when all is written, or a pipe or device as it is."""
    if os.path.exists(path) and not os.path.isfile(path):
        with open(path, "wb") as file:
            yield file
        return
    import tempfile

    whole = os.path.realpath(path)
    try:
        new = tempfile.NamedTemporaryFile(buffering=1 << 18, dir=os.path.dirname(whole), prefix=".rendapil-", delete=False)
    except OSError as error:
        raise OSError(error.errno, error.strerror, path) from None
    with new as file:
        try:
            yield file
            file.flush()
            mask = os.umask(0)
            os.umask(mask)
            os.chmod(file.name, os.stat(whole).st_mode & 0o777 if os.path.exists(whole) else 0o666 & ~mask)
            os.replace(file.name, whole)
        except BaseException:
            os.unlink(file.name)
            raise


def put_in_place(path: str, text: str) -> None:
    """Writes a file whole, or not at all."""
    try:
        with written(path) as file:
            file.write(text.encode())
    except OSError as error:
        error.filename = path
        raise
