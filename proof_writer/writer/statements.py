"""The statements of a walk that call nothing: operands, right sides, stores, and what lies behind a reference."""
from . import mir
from .common import NEWLINE, Refused, cell, description_of, held, let
from .kinds import BOOL, UNIT, Array, Declared, UInt
from .state import Value
from .terms import bracketed, dashed

# The toolchain writes a large literal as `intBig`, whose bound is a proof: this one, and not 512.
LARGE_LITERAL = 2048
SYMBOL = {'add': '+', 'sub': '-', 'mul': '*'}


class Statements:
    """A part of `Walk`."""

    # ---- operands

    def operand(self, operand, state):
        """The text of an operand, and its value."""
        if operand == 'unit':
            return '(unit-lit !)', Value('plain', UNIT, 'tt')
        if operand in ('true', 'false'):
            return '(%s-lit !)' % operand, Value('plain', BOOL, operand)
        if operand[0] == 'int':
            text = '(big-lit ! (record { fits = lit< tt }))' if int(operand[2]) >= LARGE_LITERAL else '(lit ! tt)'
            return text, Value('plain', self.type(['tyInt', operand[1]]), operand[2], '(lit< tt)')
        if operand[0] != 'copy':
            raise Refused('%s: operand %s' % (self.where, operand))
        local = int(operand[1][1])
        steps = mir.steps(operand[1])
        value = state.cells[local]
        if value is None:
            raise Refused('%s: local %d is read empty' % (self.where, local))
        position = state.position(cell(local))
        if not steps:
            return '(cell ! %d refl)' % position, value
        if steps[0][0] == 'field' and len(steps) == 1:
            return '(cell-field ! %d %s refl refl refl)' % (position, steps[0][1]), self.field(value, int(steps[0][1]))
        if steps[0][0] == 'variant':
            variant, index = int(steps[0][1]), int(steps[1][1]) - 1
            type_ = value.type.variants[variant][1][index]
            fact = None
            if isinstance(type_, UInt):
                fact = '%s .1 .1%s .0 .fits' % (value.typed(), ' .1' * index)
            elif isinstance(type_, Declared):
                fact = value.type.owed(value.d, value.fact, index)
            text = '(cell-variant ! %d %d %d refl refl refl refl refl)' % (position, variant, index)
            return text, Value('plain', type_, value.variant_fields[index], fact)
        raise Refused('%s: operand %s' % (self.where, operand))

    def field(self, value, index):
        if value.kind == 'slice':
            if index == 1:
                return Value('plain', UInt(64, 'usize'), '%s .n' % value.at, value.fact)
            return Value('pointer', at=value.at, key=value.key)
        name, type_ = value.type.fields[index]
        name = '«%s»' % name if '_' in name or name == 'open' else name
        fact = None
        if isinstance(type_, UInt):
            fact = '%s .1%s .0 .fits' % (value.typed(), ' .1' * index)
        elif isinstance(type_, Declared):
            fact = value.type.owed(value.d, value.fact, index)
        return Value('plain', type_, '%s .%s' % (bracketed(value.d), name), fact)

    def operands(self, operands, state):
        text, values = '(no-more !)', []
        for operand in reversed(operands):
            one, value = self.operand(operand, state)
            values.insert(0, value)
            text = '(and-then ! %s %s)' % (one, text)
        return text, values

    # ---- assignments

    def assign(self, statement, state, rest):
        target, value = statement[1], statement[2]
        local = int(target[1])
        through = mir.steps(target)
        if through:
            if through[0][0] != 'deref':
                raise Refused('%s: a field of a local is stored' % self.where)
            return self.store_through(local, value, state, rest)
        if value[0] == 'repeat':
            return self.fill_array(local, value, state, rest)
        if value[0] == 'rvOpd' and isinstance(value[1], list) and value[1][0] == 'copy' and any(s[0] == 'deref' for s in mir.steps(value[1][1])):
            return self.load_through(local, value[1][1], state, rest)
        reslice = self.reslice(local, value, state, rest)
        if reslice is not None:
            return reslice
        before, text, result = self.right_side(local, value, state)
        return before + self.store(local, text, result, state, rest) + self.then(rest, state)

    def store(self, local, text, value, state, rest):
        empty = state.cells[local] is None
        position = state.position(cell(local))
        state.cells[local] = value.renamed(self.name(local) or value.origin)
        if rest is None:
            out = 'assigns-last ! %s (from ! (stop !)) (%s ! %d refl %s) $' % (text, 'init' if empty else 'store', position, value.typed())
        else:
            out = '%s ! %s %d refl %s $' % ('sets' if empty else 'resets', text, position, value.typed())
        out += NEWLINE if self.name(local) else ' '
        if value.kind == 'element':
            size = self.parameters[value.key].type.size
            out += 'rewrite ! %d (λ (x : ℕ). ‵ (fat fullShare tyPtr l%d 0 (vptr (%s .b) x))) (sym (place-is %d (%s .o) %s)) refl $' % (position, local, value.at, size, value.at, bracketed(value.index)) + ' '
        return out

    def right_side(self, local, value, state):
        """Lines before it, its text and its value."""
        kind = value[0]
        if kind == 'rvOpd':
            text, result = self.operand(value[1], state)
            return '', '(of-opd ! %s)' % text, result
        if kind == 'op2':
            return self.binary(value, state)
        if kind == 'op1':
            return self.cast(value, state)
        if kind == 'addrOf':
            return ('',) + self.address(value[1], state)
        if kind == 'aggregate':
            return self.aggregate(local, value, state)
        raise Refused('%s: right side %s' % (self.where, kind))

    def binary(self, value, state):
        operator = value[1] if isinstance(value[1], str) else value[1][0]
        one, a = self.operand(value[2], state)
        two, b = self.operand(value[3], state)
        if operator in ('lt', 'le', 'eq', 'ne'):
            test = {'lt': 'ltb', 'le': 'leb', 'eq': 'eqb', 'ne': 'eqb'}[operator]
            d = '%s %s %s' % (test, bracketed(a.d), bracketed(b.d))
            result = Value('plain', BOOL, 'not (%s)' % d if operator == 'ne' else d, test=(operator, a.d, b.d), origin=a.origin)
            return '', '(bin ! %s %s tt)' % (one, two), result
        if operator == 'offset':
            result = Value('element', at=a.at, key=a.key)
            result.index, result.index_name = b.index, b.index_name
            result.d = 'vptr (%s .b) (%s + %s .o)' % (a.at, bracketed(b.d), a.at)
            return '', '(bin ! %s %s tt)' % (one, two), result
        if operator not in SYMBOL:
            raise Refused('%s: operator %s' % (self.where, operator))
        d = '%s %s %s' % (bracketed(a.d), SYMBOL[operator], bracketed(b.d))
        number = self.next('number')
        fits = 'fits-%d' % number
        expression = '%s %s %s' % (self.shown(value[2], a), SYMBOL[operator], self.shown(value[3], b))
        sums = self.description.get('sums', {})
        before = ''
        if operator == 'sub':
            before = let('least-%d' % number, '%s ≤ %s' % (bracketed(b.d), bracketed(a.d)), self.filled(description_of(sums, expression, 'sum', self.where), state))
            proof = 'less-fits _ _ %s' % bracketed(a.fact)
            why = 'least-%d' % number
        elif operator == 'mul' and self.element_access(value, state) is not None:
            p, inside = self.element_access(value, state)
            proof = 'scaled %d _ _ _ %s %s-n (%s-room .1)' % (p.type.size, bracketed(inside), dashed(p.name), dashed(p.name))
            why = '(record { fits = %s })' % fits
        else:
            proof = self.filled(description_of(sums, expression, 'sum', self.where), state)
            why = '(record { fits = %s })' % fits
        before += let(fits, '%s < 2 ^ %d' % (bracketed(d), a.type.width), proof)
        result = Value('plain', UInt(a.type.width, a.type.row), d, fits)
        result.index, result.index_name = a.d, self.shown(value[2], a)
        return before, '(bin ! %s %s %s)' % (one, two, why), result

    def shown(self, operand, value):
        """An operand as the source writes it."""
        if isinstance(operand, list) and operand[0] == 'copy':
            return self.name(int(operand[1][1])) or value.origin or value.d
        return value.d

    def element_access(self, value, state):
        """A product that is an element's offset: the slice, and why the index is below its length at entry."""
        index = value[2]
        accesses = [key for key in self.description.get('inside', {}) if key.split('[')[1] == self.shown(index, self.operand(index, state)[1]) + ']']
        if len(accesses) != 1:
            return None
        p = self.parameters[accesses[0].split('[')[0]]
        return p, self.filled(self.description['inside'][accesses[0]], state)

    def cast(self, value, state):
        text, a = self.operand(value[2], state)
        width = int(value[1][3])
        fits = 'fits-%d' % self.next('number')
        if a.type.width > width:
            raise Refused('%s: a cast to a narrower type' % self.where)
        before = let(fits, '%s < 2 ^ %d' % (bracketed(a.d), width), 'wide _ %s' % bracketed(a.fact) if a.type.width < width else a.fact)
        return before, '(un ! %s (record { fits = %s }))' % (text, fits), Value('plain', UInt(width, 'u%d' % width), a.d, fits)

    def address(self, place, state):
        local = int(place[1])
        steps = mir.steps(place)
        position = state.position(cell(local))
        if not steps:
            value = Value('pointer', at='(local-at %d)' % local, key='_%d' % local)
            value.local = local
            if isinstance(self.local_type(local), Array):
                value.array = self.local_type(local)
            return '(addr ! (from ! (stop !)))', value
        source = state.cells[local]
        value = Value('pointer', at=source.at, key=source.key)
        if steps[0][0] == 'deref':
            return '(addr ! (from ! (hop ! (look ! %d refl) (stop !))))' % position, value
        return '(addr ! (from ! (fld ! refl (hop ! (look-in ! %d (sub ! 0 refl (whole !))) (stop !)))))' % position, value

    def aggregate(self, local, value, state):
        operands = mir.items(value[1])
        text, values = self.operands(operands, state)
        text = '(agg ! %s)' % text
        written = self.local_types[local]
        if isinstance(written, list) and written[0] == 'tyStruct':
            return '', text, self.slice_of(values)
        type_ = self.type(written)
        if type_.kind == 'struct':
            made = 'made-%d' % self.next('made')
            fields = '; '.join('%s = %s' % ('«%s»' % name if '_' in name else name, v.d) for (name, _), v in zip(type_.fields, values))
            before = let(made, type_.denotation, 'record { %s }' % fields)
            before += let(made + '-is', type_.fact(made), type_.owes(made, [v.type.is_proof(v.d, v.fact) for v in values]))
            return before, text, Value('plain', type_, made, made + '-is')
        variant = type_.variants[int(operands[0][2])][0]
        d = ' '.join(['%s-V.%s' % (type_.name, variant)] + [bracketed(v.d) for v in values[1:]])
        made = 'made-%d-is' % self.next('made')
        before = let(made, type_.fact(d), type_.owes(d, [v.type.is_proof(v.d, v.fact) for v in values[1:]]))
        return before, text, Value('plain', type_, d, made)

    def slice_of(self, values):
        address, length = values
        value = Value('slice', at=address.at, key=address.key, fact=length.fact)
        if address.array is not None:
            if length.d != address.array.count:
                raise Refused('%s: a part of a local array is lent' % self.where)
            value.array = address.array
            value.local = address.local
        elif length.d != '%s .n' % address.at:
            value.part = length
        return value

    def reslice(self, local, value, state, rest):
        """The two statements that lend a slice again, as one step."""
        if value[0] != 'addrOf' or rest is None or rest[0] != 'seq' or rest[1][0] != 'assign':
            return None
        target, again = rest[1][1], rest[1][2]
        steps = mir.steps(value[1])
        if not steps or steps[0][0] != 'field' or again[0] != 'aggregate' or mir.steps(target):
            return None
        source = int(value[1][1])
        operands = mir.items(again[1])
        new = int(target[1])
        whole = [['copy', ['place', str(local), 'lnil']], ['copy', ['place', str(source), ['lcons', ['field', '1'], 'lnil']]]]
        if operands != whole or state.cells[local] is not None or state.cells[new] is not None:
            return None
        held_ = state.cells[source]
        at = [state.position(cell(k)) for k in (source, local, new)]
        state.cells[local] = Value('pointer', at=held_.at, key=held_.key)
        state.cells[new] = Value('slice', at=held_.at, key=held_.key, fact=held_.fact)
        out = 'reslices ! %d %d %d refl refl refl tt refl refl refl %s $' % (at[0], at[1], at[2], state.cells[new].typed()) + ' '
        return out + self.run(rest[2], state)

    def fill_array(self, local, value, state, rest):
        """`[d; n]`: the array holds a list xs, `filled : Filled n d xs`."""
        if rest is None:
            raise Refused('%s: an array is made by a last statement' % self.where)
        type_ = self.local_type(local)
        before = self.free(local, state) if state.cells[local] is not None else ''
        before += state.to_front([cell(local)])
        text, d = self.operand(value[1], state)
        element = type_.element
        xs = 'xs-%d' % local
        state.cells[local] = Value('array', type_, xs, '(filled-%d .long)' % local, origin=self.name(local))
        return before + 'fills-array ! %s (%s) (%s) %s l%d %s (%s) %s %s (from ! (stop !)) (λ %s filled-%d.' % (
            element.row, element.makes, element.lawful, type_.count, local, bracketed(d.d), element.value(d.d), element.is_proof(d.d, d.fact), text, xs, local) + NEWLINE + self.then(rest, state) + ')'

    def free(self, local, state):
        """A local that holds something is made room."""
        value = state.cells[local]
        state.cells[local] = None
        if value.kind != 'array':
            return 'forget ! %d refl $ ' % state.position(cell(local))
        type_ = value.type
        return state.to_front([cell(local)]) + 'frees-array ! %s %s l%d %s $ ' % (type_.element.row, type_.count, local, bracketed(value.d))

    # ---- through a reference

    def open(self, value, state):
        """Opens what a reference or an element's address leads to: the text, its type, its value, its fact, and why it is inside."""
        type_ = self.parameters[value.key].type
        number = self.next('open')
        is_ = 'open-%d' % number
        inside = None
        if value.kind == 'pointer':
            now = state.now[value.key]
            text = state.to_front([held(value.key)]) + 'opens-ref ! tt (%s) %s %s (λ %s.' % (type_.data, value.at, bracketed(now), is_)
        else:
            list_ = state.now[value.key]
            default = self.crate.default(type_)
            inside = 'in-%d' % number
            now = '(getD %s %s %s)' % (bracketed(list_), bracketed(value.index), default)
            text = let(inside, '%s < length %s' % (bracketed(value.index), bracketed(list_)), self.inside_now(value, state)) + state.to_front([held(value.key)])
            text += 'opens-elem ! tt (%s) %s %s %s %s %s (λ %s.' % (type_.data, value.at, bracketed(list_), bracketed(value.index), default, inside, is_)
        state.replace_front(1, ['opened', 'around'])
        return text + ' ', type_, now, is_, inside

    def inside_now(self, value, state):
        key = '%s[%s]' % (value.key, value.index_name)
        proof = self.filled(description_of(self.description.get('inside', {}), key, 'proof that it is inside', self.where), state)
        length = state.lengths[value.key]
        return proof if length == 'refl' else 'rw %s (%s)' % (bracketed(length), proof)

    def shut(self, value, state, type_, new, new_is, inside, changed):
        now = state.now[value.key]
        if value.kind == 'pointer':
            text = 'shuts-ref ! tt (%s) %s %s %s %s $' % (type_.data, value.at, bracketed(now), bracketed(new), bracketed(new_is))
            state.now[value.key] = new
        elif changed:
            text = 'shuts-elem ! tt (%s) %s %s %s %s %s %s $' % (type_.data, value.at, bracketed(now), bracketed(value.index), bracketed(new), inside, bracketed(new_is))
            state.now[value.key] = 'set %s %s %s' % (bracketed(now), bracketed(value.index), bracketed(new))
            state.lengths[value.key] = '(length-set %s %s %s ∙ %s)' % (bracketed(now), bracketed(value.index), bracketed(new), state.lengths[value.key])
        else:
            text = 'back-elem ! tt (%s) %s %s %s %s %s %s $' % (type_.data, value.at, bracketed(now), bracketed(value.index), self.crate.default(type_), inside, bracketed(new_is))
        state.replace_front(2, [held(value.key)])
        return text + NEWLINE

    def load_through(self, local, place, state, rest):
        value = state.cells[int(place[1])]
        text, type_, now, is_, inside = self.open(value, state)
        position = state.position(cell(int(place[1])))
        fields = [s for s in mir.steps(place) if s[0] == 'field']
        read = Value('plain', type_, now, is_)
        walk, look = '(stop !)', '(look-raw ! 0 refl)'
        if fields:
            read = self.field(read, int(fields[0][1]))
            walk, look = '(fld ! refl (stop !))', '(look-in ! 0 (sub ! %s refl (whole !)))' % fields[0][1]
        empty = state.cells[local] is None
        text += 'assigns ! (of-opd ! (load ! (from ! (hop ! (look ! %d refl) %s)) %s)) (from ! (stop !)) (%s ! %d refl %s) $' % (
            position, walk, look, 'init' if empty else 'store', state.position(cell(local)), read.typed()) + ' '
        state.cells[local] = read.renamed(self.name(local))
        text += self.shut(value, state, type_, now, is_, inside, False)
        return text + self.then(rest, state) + ')'

    def store_through(self, local, right, state, rest):
        value = state.cells[local]
        text, type_, _, _, inside = self.open(value, state)
        operand, new = self.operand(right[1], state)
        text += 'assigns ! (of-opd ! %s) (from ! (hop ! (look ! %d refl) (stop !))) (store-raw ! 0 refl %s) $' % (operand, state.position(cell(local)), new.typed()) + ' '
        text += self.shut(value, state, type_, new.d, new.type.is_proof(new.d, new.fact), inside, True)
        return text + self.then(rest, state) + ')'
