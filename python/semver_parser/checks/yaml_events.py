"""What a text of YAML has, by the events of libyaml: in a tenth of PyYAML's time, and in a third of
its memory. PyYAML's own reader of libyaml's nodes ends Python if they are nested too deep."""

from typing import Any, List, Union

Container = Union[dict, list]

# How deep a file that is read in this way may be nested.
DEEPEST = 100


class Unusual(Exception):
    """A text that only PyYAML's own reader takes, or refuses: with an error, an alias, a key that
    is no text, or nested deep."""


class Repeated(Exception):
    """A key that a mapping has twice, and its line, if it is known."""

    def __init__(self, key: str, line: int = 0) -> None:
        super().__init__(key, line)
        self.key, self.line = key, line


class Open:
    """A mapping or a list that more follows of, and the key of a mapping that has no value yet."""

    def __init__(self, container: Container) -> None:
        self.container = container
        self.key: Any = None

    def add(self, value: Any) -> None:
        """Puts a value, or a key, into it."""
        if isinstance(self.container, list):
            self.container.append(value)
        elif self.key is not None:
            self.container[self.key] = value
            self.key = None
        elif isinstance(value, str):
            if value in self.container:
                raise Repeated(value)
            self.key = value
        else:
            raise Unusual


def documents_of(text: str) -> List[Any]:
    """Returns the documents of a text, whose scalars are texts."""
    import yaml

    if not yaml.__with_libyaml__:
        raise Unusual
    begins = {yaml.MappingStartEvent: dict, yaml.SequenceStartEvent: list}
    top = Open([])
    left = [top]
    try:
        for event in yaml.parse(text, Loader=yaml.CBaseLoader):
            kind = type(event)
            if kind is yaml.ScalarEvent:
                left[-1].add(event.value)
            elif kind in begins:
                if len(left) > DEEPEST:
                    raise Unusual
                left.append(Open(begins[kind]()))
            elif kind in (yaml.MappingEndEvent, yaml.SequenceEndEvent):
                container = left.pop().container
                left[-1].add(container)
            elif kind is yaml.AliasEvent:
                raise Unusual
    except Repeated as error:
        raise Repeated(error.key, event.start_mark.line + 1) from None
    except (yaml.YAMLError, ValueError, OverflowError):
        raise Unusual from None
    return list(top.container)


def documents_by_nodes(text: str) -> List[Any]:
    """Returns the documents of a text by PyYAML's own reader, whose scalars are texts."""
    import yaml

    class Reader(yaml.BaseLoader):
        """PyYAML's own reader, which takes no key twice."""

        def construct_mapping(self, node: Any, deep: bool = False) -> Any:
            """Returns a mapping, each of whose keys is there once."""
            seen = set()
            for key, _ in node.value:
                if not isinstance(key, yaml.ScalarNode):
                    continue
                if key.value in seen:
                    raise Repeated(key.value, key.start_mark.line + 1)
                seen.add(key.value)
            return super().construct_mapping(node, deep)

    return list(yaml.load_all(text, Loader=Reader))
