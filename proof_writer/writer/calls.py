"""The calls of a walk: what is lent for a call, the call, and what is back."""
from .common import NEWLINE, Refused, cell, description_of, held, let
from .state import Value
from .terms import bracketed, dashed, of_flat, of_pairs, pairs, part, tuple_of


class Calls:
    """A part of `Walk`."""

    def call(self, statement, state, rest):
        function = self.crate.sources.function(statement[1])
        times = self.next(('call', function.name))
        label = function.key if times == 1 else '%s-%d' % (function.key, times)
        said = self.description.get('calls', {})
        said = said.get(function.name if times == 1 else '%s %d' % (function.name, times), {})
        said = {'requires': said} if isinstance(said, str) else said
        _, values = self.operands(statement[2], state)
        before, closes = '', ''
        for k, (p, value) in enumerate(zip(function.parameters, values)):
            if p.is_reference:
                text, close, values[k] = self.lend(p, value, state)
                before += text
                closes += close
        keys = [v.key for p, v in zip(function.parameters, values) if p.is_reference]
        before += state.to_front([held(key) for key in keys])
        inside = state.copy()
        inside.replace_front(len(keys), ['call'])
        operands, _ = self.operands(statement[2], inside)
        now = {p.name: state.now[v.key] if p.is_reference else v.d for p, v in zip(function.parameters, values)}
        passed = tuple_of(['(%s, %s)' % (v.at, state.now[v.key]) if p.is_reference else v.d for p, v in zip(function.parameters, values)])
        fit = self.arguments_fit(function, values)
        requires = 'tt'
        if function.requires:
            proof = self.filled(description_of(said, 'requires', 'proof of the requires of ' + label, self.where), state)
            before += let('req-' + label, function.flat_says(function.requires, now), proof)
            requires = pairs([of_flat('req-' + label, k, len(function.requires)) for k in range(len(function.requires))])
        in_cycle = self.cycle is not None and function.name in self.cycle['members']
        known = 'known-' + function.key
        if in_cycle:
            own = {p.name: p.entry for p in self.function.parameters}
            less = self.filled(description_of(said, 'less', 'measure', self.where), state)
            before += let('less-' + label, '%s < %s' % (self.measure(function, now), self.measure(self.function, own)), less)
            before += let('x-' + label, 'Inputs (%s-C.terms .sorts)' % function.key, passed)
            passed, known = 'x-' + label, '(self-%s x-%s less-%s)' % (function.key, label, label)
        return before + self.called(statement, function, label, values, now, state, rest, dict(
            passed=passed, fit=fit, requires=requires, known=known, operands=operands, met='-met' if in_cycle else '')) + closes

    def arguments_fit(self, function, values):
        own = [p.name for p in self.function.sharers]
        facts = []
        for p, value in zip(function.parameters, values):
            if not p.is_reference:
                facts.append(p.type.is_proof(value.d, value.fact))
            elif p in function.sharers:
                facts.append('same-' + dashed(value.key) if value.key in own else 'refl')
        return tuple_of(facts)

    def called(self, statement, function, label, values, now, state, rest, texts):
        """The call's own step, what it says, and what follows."""
        target = int(statement[3][1])
        empty = state.cells[target] is None
        z, says = 'z-' + label, 's-' + label
        after = {p.name: part(z, 1 + function.mutable.index(p)) if p in function.mutable else now[p.name] for p in function.parameters}
        slices = [p for p in function.mutable if p.kind == 'mut']
        count = 2 + len(slices)
        for p, value in zip(function.parameters, values):
            if p.kind == 'mut':
                length = '(%s)' % of_pairs(says, 1 + slices.index(p), count)
                self.known['len-%s-%s' % (label, dashed(p.name))] = length
                known = state.lengths[value.key]
                state.lengths[value.key] = length if known == 'refl' else '(%s ∙ %s)' % (length, known)
            if p in function.mutable:
                state.now[value.key] = '(%s)' % after[p.name]
        said = of_pairs(says, count - 1, count)
        for k, clause in enumerate(function.ensures):
            name = label if len(function.ensures) == 1 else '%s-%s' % (label, clause[0])
            self.known['says-' + name] = of_pairs(said, k, len(function.ensures))
        fact = bracketed(function.result.fact_of(bracketed(of_pairs(says, 0, count))))
        value = Value('plain', function.result, '%s .0' % z, fact, origin=function.name)
        head = '%s W 𝓣 %s-C.terms %s ! %s %s %s' % ('%s', function.key, texts['passed'], texts['fit'], texts['requires'], texts['known']) + ' ' + texts['operands']
        if empty and rest is not None:
            out = head % ('calls-into' + texts['met']) + ' %d (λ _. refl) refl (λ %s %s.' % (state.position(cell(target)), z, says) + NEWLINE
        else:
            last = '-last' if rest is None else ''
            kind = 'met' if texts['met'] else 'any'
            out = head % ('calls-%s%s' % (kind, last)) + ' (λ %s %s.' % (z, says) + NEWLINE
            position = state.position(cell(target))
            if rest is None:
                out += 'land-last ! (from ! (stop !)) (%s ! %d refl %s) $' % ('init' if empty else 'store', position, value.typed())
            else:
                out += '%s ! %d refl %s $' % ('lands-at' if empty else 'relands-at', position, value.typed())
            out += NEWLINE
        state.cells[target] = value.renamed(self.name(target) or function.name)
        out += ''.join(self.take_back(p, v, state) for p, v in zip(function.parameters, values) if p.is_reference)
        closes = ''.join(')' for p, v in zip(function.parameters, values) if p.is_reference and v.key.startswith('_') and '#' not in v.key)
        return out + self.then(rest, state) + ')' + closes

    def lend(self, p, value, state):
        """What is lent for a call: lines before it, brackets that close them, and the value that is passed."""
        if value.kind == 'slice' and value.local is not None:
            return self.lend_array(p, value, state)
        if value.local is not None:
            return self.lend_local(value, state)
        if value.part is not None:
            return self.lend_part(value, state)
        return '', '', value

    def lend_array(self, p, value, state):
        local, type_ = value.local, value.array
        number = self.next('lent')
        key = '_%d#%d' % (local, number)
        if any(label.startswith('kept-_%d#' % local) for label in state.context):
            raise Refused('%s: a local array is lent twice in a call' % self.where)
        list_ = state.cells[local].d
        shared = '-shr' if p.kind == 'shr' else ''
        text = state.to_front([cell(local)]) + 'lends-array%s ! tt %s tt %s l%d (lit< tt, lit< tt) %s (λ ν-%d δ-%d.' % (shared, type_.element.row, type_.count, local, bracketed(list_), number, number) + ' '
        state.replace_front(1, [held(key), 'kept-' + key])
        lent = Value('slice', at='(array l%d %s ν-%d δ-%d)' % (local, type_.count, number, number), key=key, fact=value.fact)
        lent.lent_array = (local, type_, number, shared)
        state.now[key] = list_
        state.lengths[key] = 'refl'
        self.parameters[key] = p
        return text, ')', lent

    def lend_local(self, value, state):
        local = value.local
        type_ = state.cells[local].type
        d = state.cells[local].d
        text = state.to_front([cell(local)]) + 'lends-local ! tt (%s) l%d %s refl %s (λ ν-l%d δ-l%d.' % (type_.data, local, bracketed(d), bracketed(state.cells[local].fact), local, local) + ' '
        state.replace_front(1, [held(value.key), 'kept-' + value.key])
        value.at = '(local l%d ν-l%d δ-l%d)' % (local, local, local)
        state.now[value.key] = d
        state.lengths[value.key] = 'refl'
        return text, ')', value

    def lend_part(self, value, state):
        p = self.parameters[value.key]
        number = self.next('lent')
        count, list_ = value.part.d, state.now[value.key]
        key = '%s#%d' % (value.key, number)
        row = p.type.row
        name = '%s[..%s]' % (value.key, self.count_name(value.part, state))
        proof = self.filled(description_of(self.description.get('parts', {}), name, 'proof that the part is inside', self.where), state)
        length = state.lengths[value.key]
        room = '(subst (SizeOf %s) (%s-n%s) %s-room)' % (row, dashed(p.name), '' if length == 'refl' else ' ∙ sym (%s)' % length, dashed(p.name))
        text = let('part-%d' % number, '%s ≤ length %s' % (bracketed(count), bracketed(list_)), proof) + state.to_front([held(value.key)])
        text += 'lends-part ! tt %s %s %s %s part-%d %s (λ ν-%d δ-%d.' % (row, p.place, bracketed(list_), bracketed(count), number, room, number, number) + ' '
        state.replace_front(1, [held(key), 'kept-' + key])
        lent = Value('slice', at='(part %s %s ν-%d δ-%d)' % (p.place, bracketed(count), number, number), key=key, fact=value.fact)
        lent.lent_part = (value.key, number, count, list_)
        state.now[key] = 'take %s %s' % (bracketed(count), bracketed(list_))
        state.lengths[key] = 'refl'
        state.lent[value.key] = state.now.pop(value.key)
        self.parameters[key] = p
        return text, ')', lent

    def count_name(self, value, state):
        for local, held_ in state.cells.items():
            if held_ is not None and held_.kind == 'plain' and held_.d == value.d and self.name(local):
                return self.name(local)
        return value.d

    def take_back(self, p, value, state):
        """What was lent for a call is back."""
        lent_array, lent_part = getattr(value, 'lent_array', None), getattr(value, 'lent_part', None)
        if lent_array is not None:
            local, type_, number, shared = lent_array
            list_, length = state.now.pop(value.key), state.lengths.pop(value.key)
            known = state.cells[local].fact
            text = state.to_front([held(value.key), 'kept-' + value.key])
            text += 'backs-array%s ! tt %s %s l%d ν-%d δ-%d %s $' % (shared, type_.element.row, type_.count, local, number, number, bracketed(list_)) + ' '
            state.replace_front(2, [cell(local)])
            state.cells[local] = Value('array', type_, list_, known if length == 'refl' else '(%s ∙ %s)' % (length, known), origin=self.name(local))
            return text
        if lent_part is not None:
            key, number, count, list_ = lent_part
            state.lent.pop(key)
            owner = self.parameters[key]
            last, length = state.now.pop(value.key), state.lengths.pop(value.key)
            text = state.to_front([held(value.key), 'kept-' + value.key])
            text += 'backs-part ! tt %s %s %s %s ν-%d δ-%d %s %s $' % (owner.type.row, owner.place, bracketed(list_), bracketed(count), number, number, bracketed(last), bracketed(length)) + ' '
            state.replace_front(2, [held(key)])
            state.now[key] = '(%s ++ skip %s %s)' % (bracketed(last), bracketed(count), bracketed(list_))
            known = 'part-length %s %s %s %s' % (bracketed(list_), bracketed(last), bracketed(count), bracketed(length))
            state.lengths[key] = '(%s)' % known if state.lengths[key] == 'refl' else '(%s ∙ %s)' % (known, state.lengths[key])
            return text
        if value.local is not None:
            local = value.local
            last = state.now.pop(value.key)
            state.lengths.pop(value.key)
            text = state.to_front([held(value.key), 'kept-' + value.key])
            text += 'backs-local ! tt (%s) l%d ν-l%d δ-l%d %s refl (λ is-%d.' % (p.type.data, local, local, local, bracketed(last), local) + ' '
            state.replace_front(2, [cell(local)])
            state.cells[local] = Value('plain', p.type, last, 'is-%d' % local, origin=self.name(local))
            return text
        return ''
