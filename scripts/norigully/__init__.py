"""What the scripts of this repository share. Each module is one concern; none needs more than Python's own library."""

import sys

# Each script imports this: from here on none leaves bytecode in a checkout.
sys.dont_write_bytecode = True

# Each script imports this before its other modules, which an older Python would end in a traceback.
if sys.version_info < (3, 10):
    sys.exit("%s: this needs Python 3.10 or later, and this is %d.%d" % (sys.argv[0], *sys.version_info[:2]))


def end_by_exception(kind, error, trace):
    """Ctrl-C is one line of a script; Python then ends it by the signal."""
    if issubclass(kind, KeyboardInterrupt):
        print(f"{sys.argv[0].rpartition('/')[2]}: interrupted", file=sys.stderr)
    else:
        sys.__excepthook__(kind, error, trace)


# A Ctrl-C meets what is imported, too: the scripts that people start import this before all but `os` and `sys`.
sys.excepthook = end_by_exception

import pathlib  # noqa: E402

# The version of this project (CHANGELOG.md).
VERSION = "0.2.0"
# The top of the repository.
TOP = pathlib.Path(__file__).resolve().parent.parent.parent


def print_help_if_asked(doc):
    """Prints the docstring of a script and ends it, where that is all that it is asked for."""
    if sys.argv[1:] in (["--help"], ["-h"]):
        from norigully import entry

        entry.run(pathlib.Path(sys.argv[0]).name, lambda: entry.write(f"{(doc or own_doc()).rstrip()}\n"))


def own_doc(name="__main__"):
    """The docstring of a script or a module, which Python leaves out where PYTHONOPTIMIZE is 2."""
    import ast

    module = sys.modules[name]
    return module.__doc__ or ast.get_docstring(ast.parse(module.__loader__.get_source(name)), clean=False)
