"""The arguments of scripts that have no options of their own, and scripts as modules."""

import sys
from importlib.machinery import SourceFileLoader
from importlib.util import module_from_spec, spec_from_loader
from pathlib import Path

SCRIPTS = Path(__file__).resolve().parent


def given_words(document, usage="", most=0):
    """The arguments, at most `most`. With --help it prints what the script does, and ends the script."""
    given, line = sys.argv[1:], f"usage: {sys.argv[0]} {usage}".rstrip()
    if "--help" in given or "-h" in given:
        print(f"{line}\n\n{document.strip()}")
        sys.exit(0)
    if len(given) > most:
        sys.exit(line)
    return given


def script(name):
    """Another script of this directory as a module."""
    spec = spec_from_loader(name, SourceFileLoader(name, str(SCRIPTS / name)))
    module = module_from_spec(spec)
    spec.loader.exec_module(module)
    return module
