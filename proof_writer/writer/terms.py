"""The text of terms: brackets, tuples, products and lists."""
import re


def dashed(name):
    """A name of the code as the toolchain writes it in proofs."""
    return name.replace('_', '-')


def capitals(name):
    return ''.join(word.capitalize() for word in name.split('_'))


def closing(text, start):
    """The place behind the term that begins at start: a word, or what is in brackets."""
    if text[start] != '(':
        return start + re.match(r'[^\s()]+', text[start:]).end()
    depth = 0
    for place in range(start, len(text)):
        depth += (text[place] == '(') - (text[place] == ')')
        if depth == 0:
            return place + 1
    raise ValueError('an open bracket: ' + text[start:start + 60])


def bracketed(text):
    """A term as an argument."""
    text = text.strip()
    if re.fullmatch(r'[^\s()]+', text) or text[0] == '(' and closing(text, 0) == len(text):
        return text
    return '(%s)' % text


def listed(items):
    return ' ∷ '.join(items) + ' ∷ []' if items else '[]'


def tuple_of(items):
    """Nested to the right, ended by `tt`; `part` reads it."""
    text = 'tt'
    for item in reversed(items):
        text = '(%s, %s)' % (item, text)
    return text


def tuple_type(types):
    text = 'Unit {0}'
    for item in reversed(types):
        text = '%s × %s' % (bracketed(item), text if text == 'Unit {0}' else '(%s)' % text)
    return text


def part(term, index):
    return term + ' .1' * index + ' .0'


def pairs(items):
    """Nested to the right, without an end; `of_pairs` reads it."""
    if not items:
        return 'tt'
    text = items[-1]
    for item in reversed(items[:-1]):
        text = '(%s, %s)' % (item, text)
    return text


def pairs_type(types):
    if not types:
        return 'Unit {0}'
    text = bracketed(types[-1])
    for item in reversed(types[:-1]):
        text = '%s × (%s)' % (bracketed(item), text)
    return text


def of_pairs(term, index, count):
    return term if count == 1 else term + ' .1' * index + ('' if index == count - 1 else ' .0')


def flat(items):
    """A flat product, `(a, b, c)`; `of_flat` reads it."""
    return items[0] if len(items) == 1 else '(%s)' % ', '.join(items)


def flat_type(types):
    return types[0] if len(types) == 1 else ' × '.join(bracketed(item) for item in types)


def of_flat(term, index, count):
    return term if count == 1 else '%s .%d' % (term, index)


def positions(numbers):
    """A list of positions, rows of them by `span`."""
    rows = []
    for number in numbers:
        if rows and rows[-1][0] + rows[-1][1] == number:
            rows[-1][1] += 1
        else:
            rows.append([number, 1])
    text = '[]'
    for first, count in reversed(rows):
        if count > 3:
            text = 'span %d %d %s' % (first, count, bracketed(text))
        else:
            text = ' ∷ '.join(str(first + k) for k in range(count)) + ' ∷ ' + text
    return text


def naming(name):
    """Finds a name in a text, or a module's name with the dot behind it. What stands behind a dot is a field, or a module's."""
    if name.endswith('.'):
        return re.compile(r'(?<![^\s(){};,])%s(?=\S)' % re.escape(name))
    return re.compile(r'(?<![^\s(){};,])%s(?![^\s(){}.;,]|\.\S)' % re.escape(name))


def names(text, name):
    return naming(name).search(text) is not None
