"""What every part of a walk uses: the layout of its lines, and the description's entries."""

NEWLINE = '\n        '


class Refused(Exception):
    """The description, or the function, is outside what the writer knows."""


def cell(local):
    return 'cell-%d' % local


def held(key):
    return 'held-' + key


def let(name, type_, proof):
    return 'let %s : %s = %s in ' % (name, type_, proof)


def description_of(table, key, what, where):
    if key not in table:
        raise Refused('%s: the description has no %s for `%s`; it has: %s' % (where, what, key, ', '.join('`%s`' % k for k in table)))
    return table[key]
