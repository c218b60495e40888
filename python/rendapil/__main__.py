"""The command, as `rendapil` starts it. What stands here is read by any Python 3, so that an old one is told."""
import sys

if sys.version_info < (3, 11):
    sys.stderr.write("rendapil: this needs Python 3.11, and this is Python %s\n" % sys.version.split()[0])
    sys.exit(70)

from rendapil.command import main  # noqa: E402


def run() -> None:
    """The command, by the words behind its name."""
    sys.exit(main(sys.argv[1:]))


if __name__ == "__main__":
    run()
