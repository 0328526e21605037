"""The exceptions that tell why there is no picture."""

from typing import TYPE_CHECKING, Any, Hashable, Tuple

if TYPE_CHECKING:
    from ._parts import Edit, Label


class SewarqoError(ValueError):
    """There is no picture or text, since something that was handed in is faulty. Nothing was drawn."""


class ReportError(SewarqoError):
    """A setting or a text of the report is faulty: `why`. `part` names it: "message", "notes", .."""

    def __init__(self, why: str, part: str) -> None:
        super().__init__(why)
        self.why = why
        self.part = part

    def __reduce__(self) -> Tuple[Any, ...]:
        return type(self), (self.why, self.part), self.__dict__


class LabelError(SewarqoError):
    """A label is faulty: `why`. `label` is it, and `number` its number in the report, from 0."""

    def __init__(self, why: str, number: int, label: "Label") -> None:
        super().__init__(f"label {number}: {why}")
        self.why = why
        self.number = number
        self.label = label

    def __reduce__(self) -> Tuple[Any, ...]:
        return type(self), (self.why, self.number, self.label), self.__dict__


class SourceError(SewarqoError):
    """A source is faulty: `why`. `source` is what it was handed in under."""

    def __init__(self, why: str, source: Hashable) -> None:
        super().__init__(f"source {source!r}: {why}")
        self.why = why
        self.source = source

    def __reduce__(self) -> Tuple[Any, ...]:
        return type(self), (self.why, self.source), self.__dict__


class EditError(SewarqoError):
    """An edit is faulty: `why`. `edit` is it, and `number` its number in the list, from 0."""

    def __init__(self, why: str, number: int, edit: "Edit") -> None:
        super().__init__(f"edit {number}: {why}")
        self.why = why
        self.number = number
        self.edit = edit

    def __reduce__(self) -> Tuple[Any, ...]:
        return type(self), (self.why, self.number, self.edit), self.__dict__
