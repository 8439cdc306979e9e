"""The deepest path of calls from a function on, in bytes of stack, and the cycles of calls on the way.

A cycle has a bound only if it is known for each of its functions how often the function can be on the stack at once.
"""
from typing import NamedTuple

from depth.follow import measured
from depth.listing import NotUnderstood


class Step(NamedTuple):
    """A function on a path, with the bytes that it adds and how often it stands there."""

    name: str
    size: int
    times: int = 1


class Path(NamedTuple):
    size: int
    steps: tuple


class Paths:
    """The deepest paths in a library.

    `outside` has the bytes that each allowed function outside the library takes, its return address included. `bounds` says
    how many frames of a function that calls itself, by others or at once, can be on the stack at the same time: a function
    from a name to a number, or to None where no number is known.
    """

    def __init__(self, library, outside, bounds):
        self.library, self.outside, self.bounds = library, outside, bounds
        self.functions, self.deepest, self.refusals = {}, {}, []

    def from_entry(self, address):
        """The deepest path from a function on, None where it cannot be told; self.refusals then says why."""
        if not self._reach(address):
            return None
        for cycle in cycles_of(address, self._inner):
            path = self._path_of(cycle)
            self.deepest.update((member, path) for member in cycle)
        return self.deepest[address]

    def name(self, function):
        return self.library.functions[function].name

    def _inner(self, function):
        """The functions of the library that a function calls."""
        return [call.callee for call in self.functions[function].calls if call.callee in self.library.functions]

    def _reach(self, address):
        """Measures all that can be called from a function on; False where something is not understood."""
        waiting, reached, understood = [address], {address}, True
        while waiting:
            function = waiting.pop()
            try:
                if function not in self.functions:
                    self.functions[function] = measured(self.library.functions[function], self.library)
            except NotUnderstood as problem:
                self._refuse(str(problem))
                understood = False
                continue
            new = [callee for callee in self._inner(function) if callee not in reached]
            reached.update(new)
            waiting += new
        return understood

    def _refuse(self, reason):
        if reason not in self.refusals:
            self.refusals.append(reason)

    def _behind(self, call):
        """The path that a call outside its caller's cycle leads to, None where it cannot be told."""
        if call.callee in self.library.functions:
            return self.deepest[call.callee]
        if call.callee not in self.outside:
            self._refuse(f"{call.callee}: a function outside the library of which nothing is known")
            return None
        return Path(self.outside[call.callee], (Step(call.callee, self.outside[call.callee]),))

    def _last(self, function, cycle):
        """The deepest path from a function on that does not go on in its cycle."""
        found = self.functions[function]
        paths = [Path(found.own, (Step(self.name(function), found.own),))]
        for call in found.calls:
            if call.callee in cycle:
                continue
            behind = self._behind(call)
            if behind is None:
                return None
            paths.append(Path(call.depth + behind.size, (Step(self.name(function), call.depth),) + behind.steps))
        return max(paths, key=lambda path: path.size)

    def _path_of(self, cycle):
        """The deepest path from a function on, or from any of a cycle of functions that call each other."""
        lasts = {function: self._last(function, cycle) for function in cycle}
        if None in lasts.values():
            return None
        if not any(callee in cycle for function in cycle for callee in self._inner(function)):
            return lasts[cycle[0]]
        times = {function: self.bounds(self.name(function)) for function in cycle}
        if None in times.values():
            names = ", ".join(sorted(self.name(function) for function in cycle))
            self._refuse(f"{names}: calls itself, and no bound is known")
            return None
        return self._bounded(cycle, lasts, times)

    def _bounded(self, cycle, lasts, times):
        """The bound of a cycle: every frame that can be there but one goes on in the cycle, and that one is the last.

        A function that goes on in the cycle has at most the bytes of its deepest such call on the stack.
        """
        going_on = {
            function: max(call.depth for call in self.functions[function].calls if call.callee in cycle)
            for function in cycle
        }
        paths = []
        for last in cycle:
            steps = [Step(self.name(f), going_on[f], times[f] - (f == last)) for f in sorted(cycle, key=self.name)]
            size = sum(step.size * step.times for step in steps) + lasts[last].size
            paths.append(Path(size, tuple(steps) + lasts[last].steps))
        return max(paths, key=lambda path: path.size)


def cycles_of(start, callees):
    """The strongly connected components that can be reached, each behind those that it calls (Tarjan's algorithm)."""
    number, low, waiting, found = {start: 0}, {start: 0}, [start], []
    on_stack = {start}
    visits = [(start, iter(callees(start)))]
    while visits:
        function, left = visits[-1]
        callee = next(left, None)
        if callee is not None:
            if callee not in number:
                number[callee] = low[callee] = len(number)
                waiting.append(callee)
                on_stack.add(callee)
                visits.append((callee, iter(callees(callee))))
            elif callee in on_stack:
                low[function] = min(low[function], number[callee])
            continue
        visits.pop()
        if visits:
            low[visits[-1][0]] = min(low[visits[-1][0]], low[function])
        if low[function] == number[function]:
            cycle = waiting[waiting.index(function) :]
            del waiting[waiting.index(function) :]
            on_stack.difference_update(cycle)
            found.append(cycle)
    return found
