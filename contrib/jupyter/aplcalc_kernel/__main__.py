"""The command python3 -m aplcalc_kernel: installs the kernel, removes it, and starts it for Jupyter."""
from __future__ import annotations

import argparse
import sys
from typing import Optional

LAST_SECONDS = 2
NEEDS = "python3-ipykernel and python3-jupyter-client of Debian, or 'pip install ipykernel'"


class Failure(Exception):
    """What the command can't do, in words for the person who gave it."""


def main(arguments: Optional[list[str]] = None) -> int:
    """Runs the command. The status is 0 where it is done, 1 where it failed, and 2 where its words are wrong."""
    words = sys.argv[1:] if arguments is None else arguments
    try:
        return start(words[1:]) if words[:1] == ["start"] else manage(words)
    except Failure as failure:
        print("aplcalc_kernel: %s" % failure, file=sys.stderr)
        return 1


def start(words: list[str]) -> int:
    """Serves one notebook, until Jupyter ends it."""
    try:
        from ipykernel.kernelapp import IPKernelApp
        from .kernel import AplcalcKernel
    except ImportError as error:
        raise Failure(needs(error)) from error
    IPKernelApp.launch_instance(argv=words, kernel_class=AplcalcKernel)
    # At its end ipykernel closes the output, and would wait in vain for a control thread that still flushes it.
    control = IPKernelApp.instance().control_thread
    if control is not None and control.is_alive():
        control.join(LAST_SECONDS)
    return 0


def manage(words: list[str]) -> int:
    """Installs the kernel or removes it."""
    options = parser().parse_args(words)
    prefix = sys.prefix if options.sys_prefix else options.prefix
    try:
        from . import spec
        if options.command == "install":
            try_calculator()
            print("the kernel %s is in %s" % (options.name, spec.install(options.name, options.display_name, prefix)))
        else:
            print("removed %s" % spec.remove(options.name, prefix))
    except ImportError as error:
        raise Failure(needs(error)) from error
    except spec.SpecError as error:
        raise Failure(str(error)) from error
    return 0


def try_calculator() -> None:
    """Has one line answered, so that nothing is installed which could not answer."""
    from aplcalc import Calculator, CalculatorError
    import ipykernel.kernelbase  # noqa: F401
    try:
        with Calculator(timeout=60) as calculator:
            answer = calculator.text("2+3")
    except CalculatorError as error:
        raise Failure(str(error)) from error
    if answer != "5\n":
        raise Failure("the calculator answers %r to 2+3" % answer)


def needs(error: ImportError) -> str:
    """What to install where a module is not found."""
    if error.name == "aplcalc":
        return "the Python module aplcalc is not found: 'pip install tools/python' in a clone of the calculator"
    return "%s: install %s for %s" % (error, NEEDS, sys.executable)


def parser() -> argparse.ArgumentParser:
    """The words of the command."""
    place = argparse.ArgumentParser(add_help=False)
    choice = place.add_mutually_exclusive_group()
    choice.add_argument("--user", action="store_true", help="for you alone; the default")
    choice.add_argument("--sys-prefix", action="store_true", help="for this Python's environment, such as a venv: %s" % sys.prefix)
    choice.add_argument("--prefix", metavar="FOLDER", help="below FOLDER/share/jupyter/kernels")
    place.add_argument("--name", default="aplcalc", help="the kernel's name for commands; aplcalc without it")
    command = argparse.ArgumentParser(prog="python3 -m aplcalc_kernel", description="Notebooks of sessions of the calculator aplcalc.")
    commands = command.add_subparsers(dest="command", required=True, metavar="install | remove | start")
    install = commands.add_parser("install", parents=[place], help="let Jupyter know the kernel")
    install.add_argument("--display-name", default="APL (aplcalc)", metavar="TEXT", help="the kernel's name in menus")
    commands.add_parser("remove", aliases=["uninstall"], parents=[place], help="let Jupyter forget the kernel")
    commands.add_parser("start", help="what Jupyter calls: start -f CONNECTION_FILE")
    return command


if __name__ == "__main__":
    sys.exit(main())
