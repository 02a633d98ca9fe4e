"""TaskFlow's storage, filled from the lines of a run."""

import contextlib

from taskflow import states
from taskflow import storage

PROGRESS = storage.META_PROGRESS


class Storage(storage.Storage):
    """The storage of an engine: TaskFlow's own, which a user asks as always.

    What a run does is put into the details in memory, as the book has it already; where a back end was given, `flush` saves it
    there too. Without one nothing is saved beside the book."""

    def __init__(self, flow_detail, backend, scope_fetcher):
        self._saves = backend is not None
        super().__init__(flow_detail, backend=backend, scope_fetcher=scope_fetcher)

    def _with_connection(self, functor, *args, **kwargs):
        if self._saves:
            return super()._with_connection(functor, *args, **kwargs)
        source, changed = args
        source.update(changed)
        return source

    def values(self):
        """The values of the store (a dict from symbols)."""
        found = {}
        number = self._atom_name_to_uuid.get(self.injector_name)
        if number is not None:
            found.update(self._flowdetail.find(number).results or {})
        found.update(self._transients)
        return found

    def injected(self, name):
        """What was injected for an atom alone (a dict from symbols): what stays in this process comes before what is saved. Nothing before
        the atom has a detail."""
        kept = self.detail(name).meta.get(storage.META_INJECTED) if name in self._atom_name_to_uuid else None
        return {**(kept or {}), **self._injected_args.get(name, {})}

    def detail(self, name):
        """The detail of an atom."""
        return self._flowdetail.find(self._atom_name_to_uuid[name])

    def enter(self, name, state, intention, progress=None):
        """Puts an atom into a state without a result, and gives the state before."""
        detail = self.detail(name)
        old, detail.state = detail.state, state
        detail.intention = intention
        if progress is not None:
            detail.meta[PROGRESS] = progress
        return old

    def put(self, name, state, result, progress=None):
        """Puts an atom into a state with a result, and gives the state before."""
        detail = self.detail(name)
        old = detail.state
        detail.put(state, result)
        if state == states.FAILURE:
            self._failures[name][states.EXECUTE] = result
        elif state == states.REVERT_FAILURE:
            self._failures[name][states.REVERT] = result
        if progress is not None:
            detail.meta[PROGRESS] = progress
        return old

    def clean_history(self, name):
        """Forgets what a retry controller gave."""
        self.detail(name).results = []

    def blame(self, controller, name, failure):
        """Puts a failure into the history of the retry controller that is asked for it."""
        results = self.detail(controller).results
        if results:
            results[-1][1].setdefault(name, failure)

    def flush(self):
        """Saves all in the back end that was given, if one was."""
        if self._saves:
            with contextlib.closing(self._backend.get_connection()) as connection:
                connection.update_flow_details(self._flowdetail)
                for detail in self._flowdetail:
                    connection.update_atom_details(detail)
