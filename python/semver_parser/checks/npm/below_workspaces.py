"""The overrides below workspaces, also those inside of one whose key is a workspace, such as
`{"w": {"b": "2.0.0"}}`.

`npm install` applies them to everything below the workspace, and `npm ci` doesn't look there. So a
package there is right if it satisfies either the requirement or the override.
"""

from typing import Container, Dict, List, Set, Tuple

from ..model import Requirement
from .lock import is_top
from .overrides import Rule, rule_for


def put_below_workspaces(
    asks: Dict[str, List[Requirement]],
    workspaces: Dict[str, str],
    outermost: Rule,
    looked: Container[str],
) -> None:
    """Adds overrides to the requirements of packages below workspaces, except to those at which
    `npm ci` looks. `workspaces` has their places by their names."""
    for name, place in workspaces.items():
        rule = rule_for(outermost, name, f"file:{place}")
        for at, number, spec in replaced_below(asks, place, rule):
            if at not in looked:
                it = asks[at][number]
                asks[at][number] = it._replace(replaced_by=(*it.replaced_by, spec))


def replaced_below(
    asks: Dict[str, List[Requirement]], workspace: str, rule: Rule
) -> List[Tuple[str, int, str]]:
    """Returns what a rule of a workspace replaces below it: the place of each requirer, the index
    of its requirement, and the replacement."""
    replaced: List[Tuple[str, int, str]] = []
    seen: Set[Tuple[str, int]] = set()
    left = [(workspace, rule)]
    while left:
        place, here = left.pop()
        if (place, id(here)) in seen:
            continue
        seen.add((place, id(here)))
        for number, it in enumerate(asks.get(place, ())):
            inner = rule_for(here, it.name, it.specifier)
            if inner.name == it.name and inner.spec is not None and not is_top(place):
                replaced.append((place, number, inner.spec))
            if it.found is not None and not is_top(it.found.place):
                left.append((it.found.place, inner))
    return replaced
