"""Debian's packages that parts of the workbench use, each asked for where it is used."""
import importlib

from srp.faults import Missing

DEBIAN = {
    "click": "python3-click",
    "rich": "python3-rich",
    "dpkt": "python3-dpkt",
    "jinja2": "python3-jinja2",
    "matplotlib": "python3-matplotlib",
    "distributed": "python3-distributed",
    "pandas": "python3-pandas",
    "pytest": "python3-pytest",
}


def need(name):
    """The module of that name. Where its package is missing, says which, and the command that installs it."""
    try:
        return importlib.import_module(name)
    except ModuleNotFoundError as fault:
        package = name.split(".")[0]
        if fault.name is None or fault.name.split(".")[0] != package:
            raise
        raise Missing(f"{package} is missing; it is installed by: apt-get install {DEBIAN[package]}") from None
