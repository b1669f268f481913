"""How a tool tells of itself and of others: by the names that a package gives them, where it was called by such a one."""
import argparse
import os
import re
import sys

INSTALLED = "pc-sim-"


def parser_of(name: str, text: str | None) -> argparse.ArgumentParser:
    """A parser of the command line of the tool of this name in `tools`, whose help is this text."""
    told = text or ""
    if os.path.basename(sys.argv[0]) == INSTALLED + name:
        name, told = INSTALLED + name, re.sub(r"\btools/(?=[a-z])", INSTALLED, told)
    about, _, rest = told.partition("\n\n")
    return argparse.ArgumentParser(prog=name, description=about, epilog=rest, formatter_class=argparse.RawDescriptionHelpFormatter)
