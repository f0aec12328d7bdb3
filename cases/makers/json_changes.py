"""json_changes.py: JSON values with a few members or items removed, or of other values and types, for show.py,
gcc_cases.py, sarif_read_cases.py and shellcheck_cases.py."""
import copy


def places(value, path=()):
    """Where a value has members and items."""
    keys = list(value) if isinstance(value, dict) else range(len(value)) if isinstance(value, list) else []
    for key in keys:
        yield path + (key,)
        yield from places(value[key], path + (key,))


def changed(dice, value, is_read, other_value):
    """The value after one to three changes at places that are read; `other_value` gives what stands in place of what
    was at a key."""
    value = copy.deepcopy(value)
    for _ in range(dice.choice([1, 1, 2, 3])):
        every = [it for it in places(value) if is_read(it)]
        if not every:
            break
        key = dice.choice(sorted({str(it[-1]) for it in every}))
        *path, last = dice.choice([it for it in every if str(it[-1]) == key])
        at = value
        for step in path:
            at = at[step]
        if isinstance(last, str) and dice.random() < 0.75 or isinstance(last, int) and dice.random() < 0.5:
            at[last] = other_value(dice, last, at[last])
        else:
            at.pop(last)
    return value
