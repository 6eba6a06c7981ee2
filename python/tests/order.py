"""Tests that what a call returns doesn't depend on earlier calls, or on other threads.

    python3 -m tests.order COUNT SEED

COUNT random calls are made, each in a fork of a process that made none, and some in their own
process. Then one process makes these calls in random order, each several times, and after that
several threads do, with objects that live on; they share some of these. Each call has to return the
same as alone. Last, errors of this kind are planted, and each has to be found.
"""

import copy
import ctypes
import json
import os
import pickle
import random
import subprocess
import sys
import threading
import time
from typing import Any, Callable, Dict, List, Optional

import semver_parser
from semver_parser._library import LIBRARY

from .order_calls import TEMPLATES, Call, random_calls, unnamed

TIMES = 10
"""How often each call is made."""

THREADS = 4

TRIES = 20
"""How often a planted error is looked for: threads meet only by chance."""

_PUBLIC = {name: getattr(semver_parser, name) for name in semver_parser.__all__}

# ---- one call


def _shown(value: Any) -> str:
    return f"{type(value).__name__} {value!r}"


def _shown_error(error: Exception) -> str:
    """Returns the class of an error and its values, which may raise another error."""
    said = [f"raises {type(error).__name__} {error.args!r}"]
    names = ["__str__", "index", "offset", "span", "reason", "sentence", "suggestion"]
    for name in [*names, "range", "version"]:
        try:
            it = getattr(error, name, None)
            said.append(f"{it() if callable(it) else it}")
        except Exception as other:
            said.append(f"raises {other!r}")
    return ", ".join(said)


class Objects:
    """Objects that live on, by the expressions that make them."""

    def __init__(self, disturb: Callable[[], None] = lambda: None) -> None:
        self._made: Dict[str, Any] = {}
        names = {"copy": copy, "pickle": pickle, "disturbed": self._disturbed}
        self._names = {**_PUBLIC, **names}
        self._disturb = disturb

    def _disturbed(self, items: List[Any]) -> Any:
        """Yields items, and runs other code before each."""
        for item in items:
            self._disturb()
            yield item

    def _object(self, expression: str) -> Any:
        """Returns the object of an expression, which another thread may forget at any time."""
        it = self._made.get(expression)
        if it is None:
            it = self._made[expression] = eval(expression, dict(self._names))
        return it

    def forget(self, chance: random.Random) -> None:
        """Forgets one of the objects, so that the next one may get its memory."""
        expressions = list(self._made)
        if expressions:
            self._made.pop(chance.choice(expressions), None)

    def result(self, call: Call) -> str:
        """Returns what a call returns or raises."""
        try:
            objects = {name: self._object(made) for name, made in call.objects.items()}
            return _shown(eval(call.expression, {**self._names, **objects}))
        except Exception as error:
            return _shown_error(error)


# ---- a call by itself


def _encoded(text: str) -> bytes:
    return text.encode("utf-8", "surrogatepass")


def _in_fork(work: Callable[[], bytes]) -> bytes:
    """Returns what a function returns in a fork of this process."""
    sys.stdout.flush()
    reading, writing = os.pipe()
    child = os.fork()
    if child == 0:
        try:
            with os.fdopen(writing, "wb") as to:
                to.write(work())
        finally:
            os._exit(0)
    os.close(writing)
    with os.fdopen(reading, "rb") as result:
        said = result.read()
    os.waitpid(child, 0)
    return said


def _in_process(call: Call) -> bytes:
    """Returns the result of a call in its own process."""
    command = [sys.executable, "-m", __spec__.name, "--one"]
    return subprocess.run(
        command, input=json.dumps(call).encode(), check=True, stdout=subprocess.PIPE
    ).stdout


def _print_one() -> None:
    """Prints the result of the call on standard input."""
    call = Call(*json.load(sys.stdin))
    sys.stdout.buffer.write(_encoded(Objects().result(call)))


# ---- sequences


def _yield_after_calls() -> None:
    """From now on another thread may run after each call of the library, before its outputs are
    read: this is when threads that share an output disturb each other."""
    for name, function in list(vars(LIBRARY).items()):
        if isinstance(function, ctypes._CFuncPtr):
            setattr(LIBRARY, name, _yielding(function))


def _yielding(function: Callable[..., Any]) -> Callable[..., Any]:
    def call(*arguments: Any) -> Any:
        returned = function(*arguments)
        time.sleep(0)
        return returned

    return call


class Sequence:
    """Calls in random order, by one thread or several, until one differs from the same call
    alone."""

    def __init__(self, calls: List[Call], expected: List[bytes]) -> None:
        self._calls, self._expected, self._count = calls, expected, 0
        self.difference: Optional[List[str]] = None

    def _make(self, index: int, objects: Objects, last: List[str]) -> None:
        last.append(str(self._calls[index]))
        del last[:-4]
        got = _encoded(objects.result(self._calls[index]))
        if got != self._expected[index] and self.difference is None:
            ends = [f"returns: {got!r}", f"by itself: {self._expected[index]!r}"]
            self.difference = [*last, *ends]

    def run(self, seed: str, count: int, shared: Objects) -> None:
        """Makes `count` calls, with objects that are shared and its own ones."""
        chance, last = random.Random(seed), [""]
        quiet = Objects()
        own = Objects(lambda: self._make(chance.randrange(len(self._calls)), quiet, last))
        for _ in range(count):
            if self.difference is not None:
                return
            objects = chance.choice([shared, own])
            self._make(self._index(chance), objects, last)
            if chance.randrange(20) == 0:
                objects.forget(chance)

    def _index(self, chance: random.Random) -> int:
        """Returns the index of a random call. Often it is a call of a template that all threads use
        for a while, so that they meet there, and often one of the same two calls."""
        self._count += 1  # by all threads, and it need not be exact
        if chance.randrange(3) == 0:
            return chance.randrange(len(self._calls))
        pairs = len(self._calls) // 2
        template = self._count // 80 % min(len(TEMPLATES), pairs)
        of_template = range(template, pairs, len(TEMPLATES))
        return 2 * chance.choice(of_template) + chance.randrange(2)

    def run_threads(self, seed: str, count: int) -> None:
        """Does the same with several threads at once, each with a part of the calls."""
        _yield_after_calls()
        shared = Objects()
        threads = [
            threading.Thread(target=self.run, args=(f"{seed} {at}", count // THREADS, shared))
            for at in range(THREADS)
        ]
        for thread in threads:
            thread.start()
        for thread in threads:
            thread.join()


def _difference(calls: List[Call], expected: List[bytes], seed: str) -> Optional[List[str]]:
    """Returns the first call that differs in a sequence of one thread or of several, with the last
    calls."""
    sequence, count = Sequence(calls, expected), TIMES * len(calls)
    sequence.run(seed, count, Objects())
    if sequence.difference is None:
        sequence.run_threads(seed, count)
    return sequence.difference


# ---- what is tested


def _fail(*lines: str) -> None:
    for line in lines:
        print(line if len(line) < 700 else f"{line[:700]}... ({len(line)})")
    sys.exit(1)


def _find_planted(calls: List[Call], expected: List[bytes], seed: str) -> int:
    """Plants each error in a fork, which has to find it. Returns how many there are."""
    from .order_planted import PLANTED

    for what, plant in PLANTED:

        def find() -> bytes:
            plant()
            tries = (f"{seed} {at}" for at in range(TRIES))
            return b"found" if any(_difference(calls, expected, it) for it in tries) else b""

        if _in_fork(find) != b"found":
            _fail(f"order: it isn't found that {what}")
    return len(PLANTED)


def main(count: int, seed: str) -> None:
    """Tests `count` random calls."""
    missing = unnamed(semver_parser)
    if missing:
        _fail(f"order: no call of {', '.join(missing)}")
    chance = random.Random(seed)
    calls = random_calls(chance, count)
    expected = [_in_fork(lambda: _encoded(Objects().result(call))) for call in calls]
    for index in chance.sample(range(count), count // 300):
        got = _in_process(calls[index])
        if got != expected[index]:
            by_fork = f"in a fork: {expected[index]!r}"
            _fail(str(calls[index]), f"in a process of its own: {got!r}", by_fork)
    planted = _find_planted(calls, expected, seed)
    difference = _difference(calls, expected, seed)
    if difference is not None:
        _fail(f"order, seed {seed}: after other calls a result differs.", *difference)
    print(
        f"order of calls in Python: {count} calls, {2 * TIMES * count} times in random order, by"
        f" one thread and {THREADS}, seed {seed}; {planted} planted errors found; passed"
    )


if __name__ == "__main__":
    sys.setswitchinterval(1e-6)
    if sys.argv[1] == "--one":
        _print_one()
    else:
        main(int(sys.argv[1]), sys.argv[2])
