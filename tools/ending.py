"""How the tools end: with the status of their work; where standard output is full, with 1 and one line on standard error, and where it is closed with 1.

    if __name__ == "__main__":
        ending.run("picture", main)"""
import argparse
import os
import sys


class Words(argparse.ArgumentParser):
    """The words of a tool. Its own way to print help passes over an output that is full."""

    def print_help(self, file=None):
        print(self.format_help(), end="", file=file)


def run(name, main):
    """Ends with the status that `main` returns. Ctrl-C ends with 130."""
    try:
        status = status_of(main)
        sys.stdout.flush()
    except BrokenPipeError:
        status = 1
    except OSError as fault:
        print(f"{name}: standard output: {fault.strerror}", file=sys.stderr)
        status = 1
    except KeyboardInterrupt:
        status = 130
    else:
        sys.exit(status)
    # What could not be written is not tried again at the end.
    os.dup2(os.open(os.devnull, os.O_WRONLY), 1)
    sys.exit(status)


def status_of(main):
    """What `main` returns, or ends with where its words are refused or it prints its help."""
    try:
        return main()
    except SystemExit as end:
        return end.code


def read(name, path):
    """The bytes of the file, or of standard input where there is no path; None, and a line on standard error, where they cannot be read."""
    try:
        if path is None:
            return sys.stdin.buffer.read()
        with open(path, "rb") as it:
            return it.read()
    except OSError as fault:
        print(f"{name}: {path or 'standard input'}: {fault.strerror}", file=sys.stderr)
        return None
