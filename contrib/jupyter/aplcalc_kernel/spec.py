"""The kernel spec: the folder by which Jupyter finds the kernel."""
from __future__ import annotations

import json
import os
import pathlib
import site
import sys
import tempfile
from typing import Any, Optional

from jupyter_client.kernelspec import KernelSpecManager
from jupyter_core.paths import jupyter_data_dir

MODULE = __package__


class SpecError(Exception):
    """A kernel spec that can't be installed or removed."""


def install(name: str, display_name: str, prefix: Optional[str]) -> str:
    """Installs the kernel under a prefix, or for the user where there is none. The folder that it is in."""
    existing = _folder(name, prefix)
    if existing.exists() and not _is_ours(existing):
        raise SpecError("%s is a kernel of another program: choose another --name" % existing)
    with tempfile.TemporaryDirectory() as source:
        os.chmod(source, 0o755)
        text = json.dumps(_spec(display_name), ensure_ascii=False, indent=1) + "\n"
        (pathlib.Path(source) / "kernel.json").write_text(text, encoding="utf-8")
        where = {"prefix": prefix} if prefix else {"user": True}
        try:
            return KernelSpecManager().install_kernel_spec(source, kernel_name=name, **where)
        except (OSError, ValueError) as error:
            raise SpecError(str(error)) from error


def remove(name: str, prefix: Optional[str]) -> str:
    """Removes the kernel from where install() puts it. The folder that it was in."""
    folder = _folder(name, prefix)
    if not folder.is_dir():
        raise SpecError("there is no kernel %s in %s" % (name, folder.parent))
    if not _is_ours(folder):
        raise SpecError("%s is a kernel of another program" % folder)
    try:
        return KernelSpecManager(kernel_dirs=[str(folder.parent)]).remove_kernel_spec(folder.name)
    except OSError as error:
        raise SpecError(str(error)) from error


def _folder(name: str, prefix: Optional[str]) -> pathlib.Path:
    data = os.path.join(os.path.abspath(prefix), "share", "jupyter") if prefix else jupyter_data_dir()
    return pathlib.Path(data) / "kernels" / name.lower()


def _is_ours(folder: pathlib.Path) -> bool:
    """Whether the kernel in a folder is one that install() has made."""
    try:
        return MODULE in json.loads((folder / "kernel.json").read_text(encoding="utf-8"))["argv"]
    except (OSError, ValueError, KeyError, TypeError):
        return False


def _spec(display_name: str) -> dict[str, Any]:
    return {
        "argv": [sys.executable, "-Xfrozen_modules=off", "-m", MODULE, "start", "-f", "{connection_file}"],
        "display_name": display_name,
        "language": "aplcalc",
        "interrupt_mode": "signal",
        "metadata": {"debugger": False},
        "env": _environment(),
    }


def _environment() -> dict[str, str]:
    """What the kernel needs to find this package and the calculator again, whatever is in the folder of the notebook."""
    environment = {"PYTHONSAFEPATH": "1"}
    folder = str(pathlib.Path(__file__).resolve().parent.parent)
    installed = [os.path.realpath(path) for path in [*site.getsitepackages(), site.getusersitepackages()]]
    path = [os.path.abspath(part) for part in os.environ.get("PYTHONPATH", "").split(os.pathsep) if part]
    if folder not in installed:
        path.insert(0, folder)
    if path:
        environment["PYTHONPATH"] = os.pathsep.join(dict.fromkeys(path))
    if os.environ.get("APLCALC"):
        environment["APLCALC"] = os.path.abspath(os.environ["APLCALC"])
    return environment
