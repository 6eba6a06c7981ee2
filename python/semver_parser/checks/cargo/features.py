"""Which optional dependencies the features of a package require, according to Cargo's lock file."""

from typing import Dict, List, Set

from ..files import WrongShape
from .manifests import Manifest


def features_of(manifest: Manifest) -> Dict[str, List[str]]:
    """Returns the features of a package: its own, and one for each optional dependency that no
    feature has as `dep:NAME`."""
    optional = {it.key for it in manifest.dependencies if it.is_optional}
    values = [it for each in manifest.features.values() for it in each]
    stated = {it[len("dep:") :] for it in values if it.startswith("dep:")}
    implied = {key: [f"dep:{key}"] for key in optional - stated - set(manifest.features)}
    return {**manifest.features, **implied}


def checked(manifest: Manifest) -> Manifest:
    """Returns a manifest. It is rejected if a feature requires something that is neither a feature
    nor an optional dependency."""
    features, keys = features_of(manifest), {it.key for it in manifest.dependencies}
    optional = {it.key for it in manifest.dependencies if it.is_optional}
    for feature, values in manifest.features.items():
        for value in values:
            key = value[len("dep:") :] if value.startswith("dep:") else value
            known = optional if key != value else features
            known = keys if "/" in value else known
            if key.partition("/")[0].rstrip("?") not in known:
                raise WrongShape(f": features: {feature}: {value} isn't there")
    return manifest


def activated_by(manifest: Manifest, wanted: Set[str]) -> Dict[str, Set[str]]:
    """Returns the dependencies that features of a package activate, each with the features that
    they require of it. `NAME?/FEATURE` counts as if it required the dependency, which is in the
    lock file then."""
    features = features_of(manifest)
    optional = {it.key for it in manifest.dependencies if it.is_optional}
    found: Dict[str, Set[str]] = {}
    left, seen = list(wanted), set(wanted)

    def want(feature: str) -> None:
        if feature not in seen:
            seen.add(feature)
            left.append(feature)

    for feature in left:
        for value in features.get(feature, []):
            key, slash, inner = value.partition("/")
            if slash:
                found.setdefault(key.rstrip("?"), set()).add(inner)
                if key in optional:
                    want(key)
            elif value.startswith("dep:"):
                found.setdefault(value[len("dep:") :], set())
            else:
                want(value)
    return found
