"""What a walk knows at a statement: the order of its context, what each local holds, and what it holds of each reference."""
from .terms import bracketed, listed


class Value:
    """What a local holds.

    'plain': a value `d` of a type, with the fact that it fits.   'array': a local array, a list `d`.
    'pointer', 'slice': a reference to what the parameter or local `key` leads to, at the place `at`.
    'element': the address of an element of the slice `key`.
    `origin`: the function whose result it is, or the local or parameter that it is.
    """

    def __init__(self, kind, type_=None, d=None, fact=None, at=None, key=None, test=None, origin=None):
        self.kind = kind
        self.type = type_
        self.d = d
        self.fact = fact
        self.at = at
        self.key = key
        self.test = test
        self.origin = origin
        self.variant_fields = None   # the fields of the variant that it is known to be
        self.local = None            # the number of the local that is lent
        self.array = None            # its type, where that is an array
        self.part = None             # how many elements of the slice are lent, if not all
        self.index = None            # an element's index, or the first factor of a product
        self.index_name = None       # as the source writes it

    def renamed(self, origin):
        """The same value, held by a local of this name."""
        other = Value(self.kind)
        other.__dict__.update(self.__dict__)
        other.origin = origin
        return other

    def value(self):
        if self.kind == 'plain':
            return self.type.value(self.d)
        if self.local is not None:
            return 'sliceVal (l%d, 0) %s' % (self.local, self.array.count) if self.kind == 'slice' else 'vptr l%d 0' % self.local
        if self.kind == 'element':
            return self.d
        return '%s %s' % ('ptrVal' if self.kind == 'pointer' else 'fatVal', bracketed(self.at))

    def typed(self):
        if self.kind == 'plain':
            return self.type.typed(self.d, self.fact)
        if self.kind == 'slice':
            return '(tt, (tt, (record { fits = %s }, tt)))' % self.fact
        return '(tt, tt)'


class State:
    """`context`: labels of its entries in order; `cells`: what each local holds, None for room; `now`: the present value of what a
    reference leads to; `lengths`: why a slice is as long as at entry; `lent`: the value of a slice of which a part is lent."""

    def __init__(self):
        self.context = []
        self.cells = {}
        self.now = {}
        self.lengths = {}
        self.lent = {}

    def copy(self):
        other = State()
        other.context = list(self.context)
        other.cells = dict(self.cells)
        other.now = dict(self.now)
        other.lengths = dict(self.lengths)
        other.lent = dict(self.lent)
        return other

    def position(self, label):
        return self.context.index(label)

    def to_front(self, labels):
        """The step that brings these entries to the front."""
        if self.context[:len(labels)] == list(labels):
            return ''
        text = 'move ! (%s) $ ' % listed([str(self.position(label)) for label in labels])
        self.context = list(labels) + [label for label in self.context if label not in labels]
        return text

    def replace_front(self, count, labels):
        self.context = list(labels) + self.context[count:]
