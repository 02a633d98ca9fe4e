"""Lets `taskflow.engines.load` take a path as `book`, as in `load(flow, engine="verified", book="create-volume.book")`.

TaskFlow puts its flow detail into the book before it looks for the engine, so a path has to be made a Book before that."""

import functools
import os
import sys

HELPERS = "taskflow.engines.helpers"
_NAMES = ("load", "run", "load_from_factory")


def accept_paths(helpers):
    """Wraps the loading functions of TaskFlow's module, and those that `taskflow.engines` took from it."""
    package = sys.modules.get("taskflow.engines")
    for name in _NAMES:
        function = getattr(helpers, name)
        if not hasattr(function, "takes_paths"):
            wrapped = _taking_paths(function)
            setattr(helpers, name, wrapped)
            if getattr(package, name, None) is function:
                setattr(package, name, wrapped)


def _taking_paths(function):
    import inspect
    signature = inspect.signature(function)

    @functools.wraps(function)
    def call(*args, **kwargs):
        bound = signature.bind(*args, **kwargs)
        given = bound.arguments
        if isinstance(given.get("book"), (str, os.PathLike)) and _is_ours(given.get("engine")):
            _replace(given)
        return function(*bound.args, **bound.kwargs)

    call.takes_paths = True
    return call


def _is_ours(engine):
    return isinstance(engine, str) and engine.partition(":")[0] == "verified"


def _replace(given):
    from .books import Book
    book = given["book"] = Book(given["book"])
    if given.get("flow_detail") is not None:
        given["flow_detail"].verified_book = book.path


class _Finder:
    """Waits for TaskFlow's module to be imported, and wraps its functions then."""

    def find_spec(self, name, path=None, target=None):
        if name != HELPERS:
            return None
        import importlib.util
        sys.meta_path.remove(self)
        spec = importlib.util.find_spec(name)
        run = spec.loader.exec_module

        def run_and_wrap(module):
            run(module)
            accept_paths(module)

        spec.loader.exec_module = run_and_wrap
        return spec


def wait():
    """Wraps TaskFlow's functions, now or when they are imported."""
    if HELPERS in sys.modules:
        accept_paths(sys.modules[HELPERS])
    elif not any(isinstance(finder, _Finder) for finder in sys.meta_path):
        sys.meta_path.insert(0, _Finder())
