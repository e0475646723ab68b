"""`python -m township`: see `python -m township --help`."""
import sys

# The number of the signal of Ctrl-C is 2, and shells add 128 to it.
_INTERRUPTED = 130

if __name__ == "__main__":
    try:
        from ._command import main

        sys.exit(main())
    except KeyboardInterrupt:
        sys.exit(_INTERRUPTED)
