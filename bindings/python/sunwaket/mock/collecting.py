"""Fields that are collected on an object (GraphQL October 2021, section 6.3.2), `@skip` and `@include` aside."""

from .._selections import Field, Spread


def fields_on(types, document, name, sets):
    """The fields that these sets select on an object of this type, in order; a fragment is entered once."""
    entered, waiting = set(), [selection for it in reversed(sets) for selection in reversed(it)]
    while waiting:
        selection = waiting.pop()
        if isinstance(selection, Field):
            yield selection
            continue
        if isinstance(selection, Spread):
            if selection.name in entered:
                continue
            entered.add(selection.name)
            selection = document.fragments.get(selection.name)
        if selection and types.stands_for(name, selection.condition):
            waiting += reversed(selection.selections)
