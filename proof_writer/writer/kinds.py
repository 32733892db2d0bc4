"""The types of values in a walk: how the value of a denotation is written, and why it fits its type.

`denotation`: the type of its values in definitions.   `data`: its `Data` (reference_laws, proofs/Call.antt).
`fact(d)`: what is known of a value d, or None.        `is_proof(d, fact)`: from that, the proof that d fits.
"""
from .terms import bracketed, tuple_of


class UInt:
    kind = 'number'

    def __init__(self, width, row):
        self.width = width
        self.row = row
        self.denotation = 'ℕ'
        self.mir = 'tyInt w%d' % width
        self.data = 'of-number w%d' % width
        self.makes = 'uint-makes 𝓤 H A W w%d' % width
        self.lawful = 'uint-lawful 𝓤 H A W w%d' % width
        self.size = width // 8

    def value(self, d):
        return 'vint w%d %s' % (self.width, bracketed(d))

    def typed(self, d, fact):
        return '(tt, record { fits = %s })' % fact

    def is_proof(self, d, fact):
        return '(refl, %s)' % fact

    def fact(self, d):
        return '%s < 2 ^ %d' % (bracketed(d), self.width)

    def fact_of(self, is_proof):
        return is_proof + ' .1'


class Simple:
    """A type whose values need no fact."""

    def __init__(self, kind, denotation, mir, data, value):
        self.kind = kind
        self.row = kind
        self.denotation = denotation
        self.mir = mir
        self.data = data
        self.value = value
        self.size = 1

    def typed(self, d, fact):
        return '(tt, tt)'

    def is_proof(self, d, fact):
        return 'refl'

    def fact(self, d):
        return None

    def fact_of(self, is_proof):
        return is_proof


BOOL = Simple('bool', 'Bool', 'tyBool', 'of-truth', lambda d: 'vbool ' + bracketed(d))
UNIT = Simple('unit', 'Unit {0}', 'tyUnit', 'of-nothing', lambda d: 'vunit')


class Declared:
    """A struct (`fields`: name and type of each) or an enum (`variants`: name and types of each) of a crate."""

    def __init__(self, name, kind, crate):
        self.name = name
        self.kind = kind
        self.crate = crate
        self.denotation = name
        self.row = name + '-T.the-row'
        self.mir = name + '-L.mir'
        self.laws = 'LL' if kind == 'struct' else 'EL'
        self.all_laws = '%s-T.the-type %s-L.the-laws' % (name, name)
        few = ' tt' if kind == 'enum' else ''
        self.data = 'of-%s %s-T.the-type %s-T.Laws.the-laws %s-T.Laws.the-plain%s' % (kind, name, name, name, few)
        self.lawful = '%s.lawful %s 𝓤 H A W%s' % (self.laws, self.all_laws, few)
        self.makes = '%s.makes %s-T.the-type %s-L.the-plain 𝓤 H A' % (self.laws, name, name)

    @property
    def size(self):
        end = widest = 1
        end = 0
        for _, kind in self.fields:
            end = (end + kind.size - 1) // kind.size * kind.size + kind.size
            widest = max(widest, kind.size)
        return (end + widest - 1) // widest * widest

    def value(self, d):
        return '%s.val %s %s' % (self.laws, self.all_laws, bracketed(d))

    def typed(self, d, fact):
        return '(%s .typed %s _ %s .0)' % (self.lawful, bracketed(d), bracketed(fact))

    def is_proof(self, d, fact):
        return fact

    def fact(self, d):
        return 'Is %s %s (%s ∷ [])' % (self.row, bracketed(d), self.value(d))

    def fact_of(self, is_proof):
        return is_proof

    def owes(self, d, proofs):
        return '%s.owes %s %s %s' % (self.laws, self.all_laws, bracketed(d), tuple_of(proofs))

    def owed(self, d, fact, index):
        """What is known of field `index` (of the variant that d is), a declared type."""
        return '(%s.owed %s %s _ %s%s .0)' % (self.laws, self.all_laws, bracketed(d), bracketed(fact), ' .1' * index)


class Array:
    """A local array of n elements: one entry of the context, `ArrayAt`; its fact is that the list is n long."""
    kind = 'array'

    def __init__(self, element, count):
        self.element = element
        self.count = count
        self.denotation = 'List ' + bracketed(element.denotation)
        self.mir = 'tyArray (%s) %s' % (element.mir, count)

    def fact(self, d):
        return 'length %s ≡ %s' % (bracketed(d), self.count)

    def entry(self, local, d):
        return '‵ (ArrayAt %s %s l%d %s)' % (self.element.row, self.count, local, bracketed(d))


class Opaque:
    """A type that no walk looks into."""
    kind = 'opaque'

    def __init__(self, name):
        self.denotation = name

    def fact(self, d):
        return None
