"""The beginning of each command's parser."""

import argparse

from . import __version__


def parser_of(program: str, about: str, more: str) -> argparse.ArgumentParser:
    """A parser with `--help` and `--version`; of `more` the lines stay as they are."""
    words = argparse.ArgumentParser(prog=program, description=about, epilog=more,
                                    formatter_class=argparse.RawDescriptionHelpFormatter)
    words.add_argument("--version", action="version", version=f"{program} {__version__}")
    return words
