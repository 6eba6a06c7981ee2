"""The overrides of a project of npm, and which of them applies to which requirement.

This imitates npm 10.8.2 (`override-set.js` and `edge.js` of its Arborist), and nothing else depends
on how: `rules_of` reads package.json, and `put_overrides` replaces requirements. What this release
may leave as it is is listed only with `--strict` (`leaving`).

A rule is a key of the overrides with its value. It applies to requirements of its name that have a
version in common with its range. The rules inside of it apply to everything that such a package
requires, directly or through others. If several rules have the name, the innermost comes first.

Each package has one rule. That rule, the rules inside of it and those around it apply to what the
package requires. npm reads a lock file in its order. The rule of a package is that of the last
requirement that led to it and had a rule by then; if there is none, it is the rule of the directory
that the package is in. The project has the outermost rule. Its workspaces and linked directories
have none.
"""

from bisect import bisect_left, insort
from dataclasses import dataclass, field
from functools import cached_property
from itertools import count
from typing import Any, Dict, Iterator, List, Optional, Set, Tuple

from semver_parser import Dialect, Range

from ..files import Entry, WrongShape, object_at, text_at
from ..satisfaction import is_met, is_range, is_version, range_in
from ..model import PEERS, Package, Requirement
from ..node.specifiers import alias_of, git_range_of, name_and_rest, range_of, reason_of
from .lock import (
    Packages,
    folder_round,
    folders,
    inside,
    is_top,
    name_by_place,
    pinned_in,
)
from .overlaps import Overlaps

ANY = "*"


@dataclass(eq=False)
class Rule:
    """An override.

    - `name` and `within` are the name and the range of its key, which is `key`.
    - `own` is its value, or that of the `.` inside.
    - `spec` is what replaces a requirement; None if nothing does.
    - `outer` is the rule that it is in, and `inner` has those inside of it. The outermost rule has
      no name.
    """

    name: str = ""
    within: str = ANY
    own: str = ANY
    spec: Optional[str] = None
    outer: Optional["Rule"] = None
    key: str = ""
    inner: List["Rule"] = field(default_factory=list)

    chosen: Dict[Tuple[str, str], "Rule"] = field(default_factory=dict)
    """The rules that were chosen for requirements of a package with this rule."""

    @cached_property
    def by_name(self) -> Dict[str, "RulesOfName"]:
        """The rules inside by their names."""
        found: Dict[str, List[Rule]] = {}
        for rule in self.inner:
            found.setdefault(rule.name, []).append(rule)
        return {name: RulesOfName(rules) for name, rules in found.items()}

    @cached_property
    def alone(self) -> "RulesOfName":
        """This rule as the only one of its name."""
        return RulesOfName([self])

    @cached_property
    def versions(self) -> Range:
        """The versions in the range of the key and in the value, if that is a range."""
        key, own = (range_in(it, Dialect.NPM) for it in (self.within, self.own))
        assert key is not None
        return key if own is None else key | own

    def around(self) -> Iterator["Rule"]:
        """Yields this rule and those around it, the innermost first."""
        at: Optional[Rule] = self
        while at is not None:
            yield at
            at = at.outer

    def having(self, name: str, version: str) -> Iterator["Rule"]:
        """Yields the rules of a name that apply to what a package with this rule requires, and
        whose key or value has a version, the innermost first. Of rules with the same key only the
        innermost counts."""
        passed: List[RulesOfName] = []
        for at in self.around():
            inside = [at.by_name[name]] if name in at.by_name else []
            for rules in [*inside, at.alone] if at.name == name else inside:
                for rule in rules.having(version):
                    if not any(rule.key in it.keys for it in passed):
                        yield rule
                passed.append(rules)


class RulesOfName:
    """The rules of one name inside another rule, in their order. A file may have thousands."""

    def __init__(self, rules: List[Rule]) -> None:
        self.rules = rules
        self.keys = {it.key for it in rules}
        self.of_any = next((number for number, it in enumerate(rules) if it.within == ANY), None)

    @cached_property
    def overlaps(self) -> Overlaps:
        """The ranges of the rules before the first one for any version. No rule after that one can
        be the first."""
        texts = [it.within for it in self.rules[: self.of_any]]
        return Overlaps([Range(it, dialect=Dialect.NPM, pre_releases="included") for it in texts])

    def first(self, spec: str) -> Optional[Rule]:
        """Returns the first rule that applies to a specifier. A rule applies to a range if both
        have a version in common. A specifier without a range may have any version, so the first
        rule applies. Only a rule for any version applies to git without a range."""
        number = self.of_any
        if not is_git_without_range(spec):
            text = range_of(spec)
            wanted, found = range_in(text, Dialect.NPM, "included"), None
            if wanted is not None and (is_pre_release(text) or self.have_pre_release):
                ranges = enumerate(it.within for it in self.rules[: self.of_any])
                found = next((at for at, it in ranges if have_in_common(text, it)), None)
            else:
                found = 0 if wanted is None else self.overlaps.first(wanted)
            number = number if found is None else found
        return None if number is None else self.rules[number]

    @cached_property
    def have_pre_release(self) -> bool:
        """Whether a key has a pre-release alone."""
        return any(is_pre_release(it.within) for it in self.rules)

    @cached_property
    def versions(self) -> Overlaps:
        """The versions of each rule."""
        return Overlaps([it.versions for it in self.rules])

    def having(self, version: str) -> Iterator[Rule]:
        """Returns the rules whose key or value has a version, in their order."""
        return (self.rules[number] for number in self.versions.having(version))


def is_pre_release(text: str) -> bool:
    """Returns whether a range is a pre-release alone."""
    version = text.strip().lstrip("=v ")
    return "-" in version.partition("+")[0] and is_version(version, Dialect.NPM)


def have_in_common(one: str, other: str) -> bool:
    """Returns whether two ranges have versions in common to npm: a pre-release alone has to satisfy
    each comparator of the other range by itself, so `1.2.0-rc.1` and `1.x` have none."""
    for text, around in ((one, other), (other, one)):
        if is_pre_release(text):
            version = text.strip().lstrip("=v ")
            sets = str(Range(around, dialect=Dialect.NPM).comparators).split("||")
            return any(
                all(is_met(it, version, Dialect.NPM) for it in each.split()) for each in sets
            )
    ranges = (Range(it, dialect=Dialect.NPM, pre_releases="included") for it in (one, other))
    return not next(ranges).isdisjoint(next(ranges))


def is_git_without_range(spec: str) -> bool:
    """Returns whether a specifier is a repository without a range of versions."""
    return git_range_of(spec) is None and alias_of(spec) is None and reason_of(spec) == "git"


# ---- the overrides in package.json


def rules_of(manifest: Entry) -> Rule:
    """Returns the rules of a package.json, inside an outermost rule without a name."""
    outermost = Rule()
    overrides = manifest.get("overrides") or {}
    add_rules(outermost, inner_overrides(overrides, "overrides"), "overrides", manifest)
    return outermost


def inner_overrides(value: Any, where: str) -> Entry:
    """Returns the overrides in a value by their keys. As for npm, a list has its indices as keys,
    and a text, a number and `true` have none inside."""
    if value is None:
        raise WrongShape(f": {where} is null")
    listed = dict(zip(map(str, count()), value)) if isinstance(value, list) else value
    return listed if isinstance(listed, dict) else {}


def add_rules(outer: Rule, overrides: Entry, where: str, manifest: Entry) -> None:
    """Adds the rules in an object of overrides to a rule."""
    for key, value in overrides.items():
        if key != ".":
            its_place = f"{where}: {key}"
            name, within = name_and_range(key, its_place)
            inner = inner_overrides(value, its_place)
            own = value if isinstance(value, str) else inner.get(".", within)
            text = text_at(within if own is None else own or ANY, f"{its_place}: .")
            rule = Rule(name, within, text, replacement(text, manifest), outer, key)
            outer.inner.append(rule)
            add_rules(rule, inner, its_place, manifest)


def name_and_range(key: str, where: str) -> Tuple[str, str]:
    """Returns the name and the range of a key."""
    name, within = name_and_rest(key)
    within = within.strip() or ANY
    if not name:
        raise WrongShape(f": {where} names no package")
    if not is_range(within, Dialect.NPM):
        raise WrongShape(f": {where} has no range after its name")
    return name, within


def replacement(spec: str, manifest: Entry) -> Optional[str]:
    """Returns what an override replaces a requirement by. As for npm, `*` replaces nothing, and
    `$NAME` is what the project itself requires by that name."""
    if not spec.startswith("$"):
        return None if spec == ANY else spec
    kinds = ("devDependencies", "optionalDependencies", "dependencies", "peerDependencies")
    for kind in kinds:
        asked = object_at(manifest.get(kind, {}), kind)
        if asked.get(spec[1:]):
            return text_at(asked[spec[1:]], f"{kind}: {spec[1:]}")
    return spec


# ---- which rule applies to a requirement


def rule_for(here: Rule, name: str, spec: str) -> Rule:
    """Returns the rule for a requirement of a package with a rule. If none applies, it is the rule
    of the package."""
    if (name, spec) not in here.chosen:
        rules = (first_at(at, name, spec) for at in here.around())
        here.chosen[name, spec] = next((it for it in rules if it is not None), here)
    return here.chosen[name, spec]


def first_at(rule: Rule, name: str, spec: str) -> Optional[Rule]:
    """Returns the first rule inside another rule that applies to a requirement, or else the other
    rule if it applies itself."""
    found = rule.by_name[name].first(spec) if name in rule.by_name else None
    return rule.alone.first(spec) if found is None and rule.name == name else found


def rule_within(here: Rule, name: str, version: str) -> Rule:
    """Returns the rule of a package in a directory whose package has a rule: the first rule of its
    name whose key or value has the version, or else the directory's rule."""
    return next(here.having(name, version), here) if is_version(version, Dialect.NPM) else here


def put_in_place(rule: Optional[Rule], ask: Requirement) -> str:
    """Returns the specifier of a requirement, or what a rule replaces it by."""
    if rule is None or rule.name != ask.name or rule.spec is None:
        return ask.specifier
    return rule.spec


# ---- the rules of packages


@dataclass(eq=False)
class Edge:
    """A requirement of a package, the rule for it, if any, and the place to which it leads."""

    ask: Requirement
    rule: Optional[Rule] = None
    target: str = ""


class Edges:
    """The edges for one name, in the order in which they were read. They are also sorted by their
    places, since only a few may be in a directory."""

    def __init__(self) -> None:
        self.all: List[Edge] = []
        self.by_place: List[Tuple[str, int]] = []

    def add(self, edge: Edge) -> None:
        """Adds an edge."""
        insort(self.by_place, (edge.ask.requirer.place, len(self.all)))
        self.all.append(edge)

    def inside(self, folder: str) -> List[Edge]:
        """Returns the edges of the package in a directory, and of the packages inside of it."""
        if not folder:
            return self.all
        found: List[int] = []
        for first, end in ((folder, f"{folder}\0"), (f"{folder}/", f"{folder}0")):
            bounds = (bisect_left(self.by_place, (it, 0)) for it in (first, end))
            found += [number for _, number in self.by_place[slice(*bounds)]]
        return [self.all[number] for number in sorted(found)]


class Reading:
    """What npm knows of a lock file while it reads it: the rule of each package, and the edges
    between packages by the names of requirements."""

    def __init__(self, found: Dict[str, Package], outermost: Rule) -> None:
        self.found, self.named = found, names_in(outermost)
        self.rules: Dict[str, Rule] = {"": outermost}
        self.edges: Dict[str, Edges] = {}
        self.read: Set[str] = set()

    def add(self, place: str, asks: List[Requirement]) -> None:
        """Reads the package at a place. Edges that were read may now lead to it, and its own edges
        are added."""
        self.read.add(place)
        if not is_top(place):
            self.attach(place, name_by_place(place), folder_round(place))
        around = [inside(folder, "") for folder in folders(place)]
        for ask in asks:
            edge = Edge(ask)
            self.edges.setdefault(ask.name, Edges()).add(edge)
            self.choose(edge)
            nearest = (it + ask.name for it in around if it + ask.name in self.read)
            self.lead(edge, next(nearest, ""))

    def attach(self, place: str, name: str, folder: str) -> None:
        """Lets edges lead to a package in a directory. The package gets its rule from the last of
        them, or else from the directory."""
        for edge in self.edges[name].inside(folder) if name in self.edges else ():
            if len(edge.target) < len(place):
                self.lead(edge, place)
        if place not in self.rules and folder in self.rules:
            rule, version = self.rules[folder], self.found[place].version or ""
            self.rules[place] = rule_within(rule, name, version) if name in self.named else rule

    def choose(self, edge: Edge) -> None:
        """Chooses the rule for an edge. It is compared with what the previous rule of the edge
        replaced the requirement by."""
        rule = self.rules.get(edge.ask.requirer.place)
        if rule is not None and edge.ask.name in self.named:
            rule = rule_for(rule, edge.ask.name, put_in_place(edge.rule, edge.ask))
        edge.rule = rule

    def lead(self, edge: Edge, target: str) -> None:
        """Lets an edge lead to a package, which gets its rule then, or nowhere."""
        self.choose(edge)
        if target and target != edge.target:
            edge.target = target
            if edge.rule is not None:
                self.rules[target] = edge.rule


    def put_late(self, edge: Edge) -> Optional[str]:
        """Returns what an override replaces the requirement of an edge by, if npm sees that only
        after it has read the package.

        Then the package that is found does not satisfy the requirement, so npm puts another one
        inside the requirer, and chooses the rule again. It uses the package that it found after all
        if that has the same rule, satisfies the override, and is higher than every version that was
        required.
        """
        ask, here = edge.ask, self.rules.get(edge.ask.requirer.place)
        asked, found = put_in_place(edge.rule, ask), ask.found
        if here is None or found is None or ask.kind == PEERS:
            return None
        if not are_beside(ask.requirer.place, found):
            return None
        rule, version = rule_for(here, ask.name, asked), found.version or ""
        wanted, spec = range_in(asked, Dialect.NPM, "included"), put_in_place(rule, ask)
        is_same = rule is self.rules.get(found.place)
        if wanted is None or not is_same or is_met(asked, version, Dialect.NPM):
            return None
        is_right = is_met(spec, version, Dialect.NPM) is True
        above = range_in(f">{version}", Dialect.NPM, "included") if is_right else None
        return None if above is None or not above.isdisjoint(wanted) else spec


def are_beside(place: str, found: Package) -> bool:
    """Returns whether a package that is found is in the same `node_modules` as the package at a
    place."""
    is_inside = not is_top(place) and not is_top(found.place)
    return is_inside and folder_round(place) == folder_round(found.place)


def names_in(rule: Rule) -> Set[str]:
    """Returns the names of all rules inside a rule."""
    return {it.name for it in rule.inner}.union(*(names_in(it) for it in rule.inner))


def names_by_range(rule: Rule) -> Set[str]:
    """Returns the names of the rules inside a rule whose keys have a range."""
    own = {it.name for it in rule.inner if it.within != ANY}
    return own.union(*(names_by_range(it) for it in rule.inner))


def reading_of(
    packages: Packages,
    found: Dict[str, Package],
    asks: Dict[str, List[Requirement]],
    outermost: Rule,
) -> Reading:
    """Returns what npm knows of a lock file after it has read it, if there are overrides. It reads
    links after all packages."""
    reading = Reading(found, outermost)
    for is_link in (False, True) if outermost.inner else ():
        for place, entry in packages.items():
            if bool(entry.get("link")) == is_link:
                reading.add(place, asks[place])
    return reading


def refused(reading: Reading) -> Iterator[Tuple[Requirement, str]]:
    """Yields the requirements of the project itself that an override replaces, with the
    replacement. npm rejects that, even if a version satisfies both."""
    for edge in (it for edges in reading.edges.values() for it in edges.all):
        spec = put_in_place(edge.rule, edge.ask)
        if not edge.ask.requirer.place and spec != edge.ask.specifier:
            yield edge.ask, spec


def put_overrides(packages: Packages, asks: Dict[str, List[Requirement]], reading: Reading) -> None:
    """Replaces the requirements of packages by overrides, except those of the project itself, and
    those for packages that another package put where they are."""
    pinned = pinned_in(packages) if reading.read else set()
    replaced: Dict[str, Dict[str, str]] = {}
    edges = (reading.edges[name].all for name in reading.named if name in reading.edges)
    for edge in (it for each in edges for it in each):
        ask, spec = edge.ask, reading.put_late(edge) or put_in_place(edge.rule, edge.ask)
        is_pinned = ask.found is not None and ask.found.place in pinned
        if ask.requirer.place and spec != ask.specifier and not is_pinned:
            replaced.setdefault(ask.requirer.place, {})[ask.name] = spec
    for place, specs in replaced.items():
        asks[place] = [
            it._replace(specifier=specs[it.name], is_override=True) if it.name in specs else it
            for it in asks[place]
        ]
