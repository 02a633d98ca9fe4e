"""An engine for OpenStack TaskFlow that runs flows by the verified program `taskflow`.

    import taskflow.engines
    engine = taskflow.engines.load(flow, engine="verified", store={..}, book="create-volume.book", hands=4)
    engine.run()

`Book(path)` is a book in the place of a logbook, `test(below=3)` a decider that tests a value, `Unsupported` what a flow without a
form is refused by, `Broken` what a program that ends oddly is told by, and `VerifiedEngine` the engine itself."""

from . import loading

_PARTS = {"Book": "books", "Broken": "refusals", "Unsupported": "refusals", "VerifiedEngine": "engine", "test": "deciders"}
__all__ = sorted(_PARTS)

loading.wait()


def __getattr__(name):
    if name not in _PARTS:
        raise AttributeError("module %r has no attribute %r" % (__name__, name))
    import importlib
    return getattr(importlib.import_module("%s.%s" % (__name__, _PARTS[name])), name)
