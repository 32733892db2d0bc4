"""The walk of a function: a step for each statement of its MIR, a line for each statement of its source, with what the description
says where a proof doesn't follow."""
import re

from . import mir
from .calls import Calls
from .common import NEWLINE, Refused, cell, description_of, held, let
from .kinds import BOOL, UNIT, Array, UInt
from .state import State, Value
from .statements import Statements
from .terms import bracketed, dashed, listed, of_pairs, pairs, pairs_type, part, positions, tuple_of, tuple_type


class Walk(Statements, Calls):
    """`text` is the walk, `lemmas` are its cuts, `enums` the enums that it takes apart."""

    def __init__(self, crate, function, description, cycle=None):
        self.crate = crate
        self.function = function
        self.description = description
        self.cycle = cycle
        self.where = '%s::%s' % (crate.name, function.name)
        code = mir.Function(crate.mir[self.where])
        self.local_types = code.locals
        self.body = code.body
        self.count = len(code.locals)
        self.callees = mir.calls(code.body)
        self.counts = {}
        self.lemmas = []
        self.enums = set()
        self.path = []
        self.known = {}     # the facts that a description may name, and the proof of each
        self.loop = None
        self.parameters = {p.name: p for p in function.parameters}
        self.names = ['result'] + [p.name for p in function.parameters] + function.bindings
        self.locals_named = {name: k for k, name in enumerate(self.names)}
        self.cuts_made = {}
        self.begun = None
        self.code = ('code.%s-function' if cycle else 'code.function%.0s') % function.key
        self.tails = self.numbered_tails()
        self.cut_after = self.cut_places()

    # ---- names and types of locals

    def name(self, local):
        return self.names[local] if local < len(self.names) else None

    def type(self, written):
        if written == 'tyBool':
            return BOOL
        if isinstance(written, str):
            return UNIT if written == 'tyUnit' else written
        if written[0] == 'tyInt':
            return UInt(int(written[1]), 'u' + written[1])
        if written[0] == 'tyNamed':
            crate, name = written[1][1].strip('"').split('::')
            return self.crate.sources.crate(crate).types[name]
        if written[0] == 'tyArray':
            return Array(self.type(written[1]), written[2][1])
        return written

    def local_type(self, local):
        return self.type(self.local_types[local])

    def written_type(self, local_type):
        if isinstance(local_type, str):
            return local_type
        if local_type[0] == 'tyRef':
            life = 'erased' if local_type[1] == 'erased' else 'named ' + local_type[1][1]
            to = local_type[3]
            to = 'pointee (%s .written)' % self.type(to).row if to[0] == 'tyNamed' else self.written_type(to)
            return 'tyRef %s %s (%s)' % (bracketed(life), local_type[2], to)
        if local_type[0] == 'tyStruct' and local_type[1] == '"&[]"':
            return 'sliceTy (%s)' % self.written_type(mir.items(local_type[2])[0])
        return self.type(local_type).mir

    def next(self, key):
        self.counts[key] = self.counts.get(key, 0) + 1
        return self.counts[key]

    # ---- cuts, by the statement that they follow

    def numbered_tails(self):
        """The code from each top-level statement on, by its number."""
        tails, code, number = [], self.body, 1
        while True:
            tails.append((number, code))
            if code[0] != 'seq':
                return tails
            code = code[2]
            number += 1

    def cut_places(self):
        """The number of the statement before which each cut of the description lies."""
        places = {}
        for after in self.description.get('cuts', {}):
            number = None
            tested = None
            for k, code in self.tails:
                statement = code[1] if code[0] == 'seq' else code
                if statement[0] == 'assign' and int(statement[1][1]) == self.locals_named.get(after):
                    number = k + 1
                if statement[0] == 'call':
                    if int(statement[3][1]) == self.locals_named.get(after):
                        number = k + 1
                    if statement[1].split('::')[-1] == after:
                        tested = int(statement[3][1])
                if statement[0] == 'if' and tested in mir.operand_reads(statement[1]):
                    number = k + 1
                    tested = None
            if number is None:
                raise Refused('%s: no statement for the cut after `%s`' % (self.where, after))
            places[number] = after
        return places

    def tail_number(self, code):
        return next((k for k, tail in self.tails if tail is code), None)

    # ---- code

    def run(self, code, state):
        number = self.tail_number(code)
        if number in self.cut_after and self.loop is None and self.begun != number:
            return self.to_cut(number, code, state)
        self.begun = None
        if code[0] != 'seq':
            return self.last(code, state)
        first, rest = code[1], code[2]
        kind = first[0]
        if kind == 'seq':
            return 'assoc-then 𝓣 ! $ ' + self.run(('seq', first[1], ('seq', first[2], rest)), state)
        if kind == 'skip':
            return 'skip-then ! $' + NEWLINE + self.run(rest, state)
        if kind == 'exit':
            return 'exit-then ! $ ' + self.leave(first[1], state)
        if kind == 'return':
            return 'first ! $ ' + self.return_(state)
        if kind == 'block' and first[1][0] == 'loop':
            return self.loop_(first[1][1], state, rest)
        step = {'assign': self.assign, 'call': self.call, 'if': self.branch, 'switch': self.match}[kind]
        return step(first, state, rest)

    def last(self, code, state):
        """A statement that nothing follows."""
        kind = code[0]
        if kind == 'return':
            return self.return_(state)
        if kind == 'skip':
            return 'skips ! $ ' + self.leave(None, state)
        if kind == 'exit':
            return 'jumps ! $ ' + self.leave(code[1], state)
        return {'assign': self.assign, 'call': self.call, 'if': self.branch}[kind](code, state, None)

    def then(self, rest, state):
        return self.leave(None, state) if rest is None else self.run(rest, state)

    # ---- a description's texts

    def measure(self, function, values):
        return re.sub(r'\$(\w+)', lambda m: bracketed(values[m[1]]), self.cycle['measures'][function.name])

    def filled(self, text, state):
        """A description's text: `$name` is the present value of a parameter or local, `@name` that its length is known, `#name` what a
        local array was made of."""
        def value(m):
            name = m[1]
            if name in state.now:
                return bracketed(state.now[name])
            if name in state.lent:
                return bracketed(state.lent[name])
            local = self.locals_named.get(name)
            if local is None or state.cells[local] is None:
                raise Refused('%s: `$%s` is no parameter and no local that holds something here' % (self.where, name))
            return bracketed(state.cells[local].d)

        def length(m):
            local = self.locals_named[m[1]]
            return state.lengths[m[1]] if m[1] in state.lengths else state.cells[local].fact

        def made(m):
            return '(filled-%d .all)' % self.locals_named[m[1]]
        text = re.sub(r'#(\w+)', made, re.sub(r'@(\w+)', length, re.sub(r'\$(\w+)', value, text)))
        return re.sub(r'[^\s(){},;]+', lambda m: bracketed(self.known.get(m[0], m[0])), text)

    # ---- branches

    def test_fact(self, value, proof, holds):
        """What a test says in one of its arms."""
        if value.test is None:
            return 'is-%s %s %s' % ('true' if holds else 'false', bracketed(value.d), proof)
        operator, a, b = value.test
        if operator == 'ne':    # the test is the negation of `eqb a b`
            operator, proof = 'eq', proof if holds else '(T-not-not (eqb %s %s) %s)' % (bracketed(a), bracketed(b), proof)
            holds = not holds
        laws = {('lt', True): 'ltb→lt', ('lt', False): 'nltb→le', ('le', True): 'leb→le', ('le', False): 'nleb→lt', ('eq', True): 'eqb→eq', ('eq', False): 'ne-of'}
        return '%s %s %s %s' % (laws[operator, holds], bracketed(a), bracketed(b), proof)

    def branch(self, statement, state, rest):
        text, value = self.operand(statement[1], state)
        is_loop_test = self.loop is not None and not self.loop['tested']
        if is_loop_test:
            self.loop['tested'] = True
        name = 'while' if is_loop_test else value.origin or 'if-%d' % self.next('if')
        proof = 'h-' + dashed(name)
        arms = []
        for holds, code in ((True, statement[2]), (False, statement[3])):
            path = list(self.path)
            if not is_loop_test and (holds or mir.goes_on(statement[2])):
                self.path = path + [name if holds else 'not ' + name]
            self.known['test-' + dashed(name)] = self.test_fact(value, proof, holds)
            code = code if rest is None else mir.onto(code, rest)
            arms.append('(λ %s. %s)' % (proof, self.run(code, state.copy())))
            self.path = path
        return ('branches ! ' if rest is None else 'if-then 𝓣 ! ') + text + NEWLINE + arms[0] + NEWLINE + arms[1]

    def match(self, statement, state, rest):
        """An arm for each variant, in the order of the enum."""
        local = int(statement[1][1][1])
        value = state.cells[local]
        type_ = value.type
        position = state.position(cell(local))
        name = dashed(value.origin or self.name(local))
        is_now = 'is-' + name
        variable = 'v-' + name
        arms = []
        for k, (variant, types) in enumerate(type_.variants):
            inner = state.copy()
            fields = ['(%s .%d)' % (variable, j) for j in range(len(types))]
            d = ' '.join(['%s-V.%s' % (type_.name, variant)] + fields)
            equation = variable + (' .%d' % len(types) if types else '')
            known = Value('plain', type_, d, is_now, origin=value.origin)
            known.variant_fields = fields
            inner.cells[local] = known
            code = next(arm for keys, arm in statement[2] if k in keys)
            path = list(self.path)
            self.path = path + [variant]
            self.known['told-' + name] = equation
            text = 'arm-of 𝓣 ! (%s) %d %s %s refl (cell-tag ! %d refl refl refl) tt (λ %s.' % (type_.data, position, bracketed(equation), bracketed(value.fact), position, is_now) + NEWLINE
            arms.append(text + self.run(mir.onto(code, rest), inner) + ')')
            self.path = path
        self.enums.add(type_)

        def cases(k, term):
            if k == len(arms) - 1:
                return 'let %s = %s in %s' % (variable, term, arms[k])
            if k == len(arms) - 2:
                return 'elim (%s) [ inl %s ↦ %s%s| inr %s ↦ %s ]' % (term, variable, arms[k], NEWLINE, variable, arms[k + 1])
            return 'elim (%s) [ inl %s ↦ %s%s| inr w-%d ↦ %s ]' % (term, variable, arms[k], NEWLINE, k, cases(k + 1, 'w-%d' % k))
        return cases(0, 'cases-%s %s' % (type_.name, bracketed(value.d)))

    # ---- where a walk stands: a loop's head, a cut

    def stand(self, said, state, changed, label):
        """A context over the values that `said['values']` names: each local and each `&mut` that may differ from before."""
        names = said['values'].split()
        x, j = 'x-' + label, 'j-' + label
        terms = {name: '(%s)' % part(x, k) for k, name in enumerate(names)}
        at = State()
        at.context = ['dying'] + [cell(k) for k in range(self.count)] + [held(key) for key in state.now]
        at.now, at.lengths = dict(state.now), dict(state.lengths)
        types, facts = [], []
        for name in names:
            p = self.parameters.get(name)
            if p is not None and p.kind in ('ref', 'mut'):
                types.append(p.denotation)
                if p.kind == 'mut':
                    facts.append((dashed(name) + '-len', 'length %s ≡ length %s' % (terms[name], p.entry), ('length', name)))
            else:
                local = self.locals_named[name]
                type_ = self.local_type(local)
                types.append(type_.denotation)
                if type_.fact(terms[name]):
                    facts.append((None, type_.fact(terms[name]), ('cell', local)))
        fact = re.sub(r'\$(\w+)', lambda m: terms[m[1]] if m[1] in terms else self.parameters[m[1]].entry, said['holds'])
        facts.append((label, fact, ('holds', None)))
        known = {}
        for k, (name, _, source) in enumerate(facts):
            known[source] = '(%s)' % of_pairs(j, k, len(facts))
            if name:
                self.known[name] = known[source]
        by_local = {self.locals_named[name]: name for name in names if name not in state.now}
        for local in range(self.count):
            if local in by_local:
                type_ = self.local_type(local)
                kind = 'array' if isinstance(type_, Array) else 'plain'
                at.cells[local] = Value(kind, type_, terms[by_local[local]], known.get(('cell', local)), origin=self.name(local))
            else:
                at.cells[local] = None if local in changed else state.cells[local]
        holding = []
        for key in state.now:
            if key in terms:
                at.now[key] = terms[key]
            if ('length', key) in known:
                at.lengths[key] = known['length', key]
            p = self.parameters[key]
            holding.append(p.held(p.place, at.now[key]))
        return dict(state=at, names=names, type=tuple_type(types), facts=facts, fact='φ-' + label, holds=pairs_type([f[1] for f in facts]),
                    x=x, j=j, items=self.items(at, 'φ-%s %s' % (label, x), holding))

    def items(self, at, fact, holding):
        """The context as a list of its entries."""
        if any(v is not None and v.kind == 'array' for v in at.cells.values()):
            entries = ['raw (fact 𝓤 (%s))' % fact, 'Dying 𝓤 H E']
            for local, value in sorted(at.cells.items()):
                type_ = bracketed(self.written_type(self.local_types[local]))
                if value is None:
                    entries.append('‵ (froom %s l%d 0)' % (type_, local))
                elif value.kind == 'array':
                    entries.append(value.type.entry(local, value.d))
                else:
                    entries.append('‵ (fat fullShare %s l%d 0 (%s))' % (type_, local, value.value()))
            return listed(entries + holding)
        values = ['empty' if at.cells[k] is None else 'full (%s)' % at.cells[k].value() for k in range(self.count)]
        while values and values[-1] == 'empty':
            values.pop()
        return 'Stands 𝓤 H (%s) E (%s) (%s)' % (fact, listed(values), listed(holding))

    def reach(self, stand, state, proof):
        """The steps from the context at hand to where a walk stands, and the values there."""
        text = ''
        for local in range(self.count):
            if stand['state'].cells[local] is None and state.cells[local] is not None:
                text += self.free(local, state)
        values = [state.now[name] if name in state.now else state.cells[self.locals_named[name]].d for name in stand['names']]
        proofs = []
        for _, _, (kind, what) in stand['facts']:
            if kind == 'cell':
                proofs.append(state.cells[what].fact)
            elif kind == 'length':
                proofs.append(state.lengths[what])
            else:
                proofs.append(bracketed(self.filled(proof, state)))
        there = tuple_of(values)
        text += 'say ! (%s %s) %s $ ' % (stand['fact'], there, bracketed(pairs(proofs)))
        state.context = ['said'] + state.context
        text += 'keep ! (%s) $ ' % positions([state.position(label) for label in ['said'] + stand['state'].context])
        return text, there

    def environment(self):
        return 'env-of (%s .locals) (%s)' % (self.code, listed(self.blocks()))

    def blocks(self):
        return ['l%d' % k for k in range(self.count)]

    def with_environment(self, body):
        """A definition's lines, with the name of the locals' places where they name it."""
        return (let('E', 'Env 𝓤 H', self.environment()) if re.search(r'(?<![^\s(])E(?![^\s)])', body) else '') + body

    def to_cut(self, number, code, state):
        after = self.cut_after[number]
        said = self.description['cuts'][after]
        label = 'after-' + dashed(after)
        if number not in self.cuts_made:
            live, _ = mir.live(code)
            parameters = len(self.function.parameters)
            named = [self.locals_named.get(name) for name in said['values'].split()]
            for local in live:
                value = state.cells[local]
                if local > parameters and local not in named and value is not None and value.kind in ('plain', 'array'):
                    raise Refused('%s: `%s` is read behind the cut after `%s`: name it in its values' % (self.where, self.name(local) or local, after))
            changed = {k for k in range(self.count) if k not in live and k > parameters} | {0}
            stand = self.stand(said, state, changed, label)
            self.cuts_made[number] = stand
            self.begun = number
            body = self.run(code, stand['state'].copy())
            self.lemmas.append(self.cut_lemma(number, label, stand, body))
        text, there = self.reach(self.cuts_made[number], state, said['reached'])
        return text + 'from-%s %s %s' % (label, ' '.join(self.blocks()), there)

    def cut_lemma(self, number, label, stand, body):
        places = ' '.join(self.blocks())
        environment = self.environment()
        items = re.sub(r'(?<![^\s(])E(?![^\s)])', '(%s)' % environment, stand['items'])
        return '  abbrev {fact} : {type} → Type 0\n  {fact} {x} = {holds}\n\n'.format(fact=stand['fact'], type=bracketed(stand['type']), x=stand['x'], holds=stand['holds']) + \
            '  from-{label} : ({places} : ℕ) ({x} : {type}) → Sq W ({items}) (runs (𝓣 .C) (𝓣 .Λ) ({env}) mir-of.t-{number} (atRet ({env}) (Leaves 𝓤 H A ρ)))\n  unfolding afterTurn\n  from-{label} {places} {x} ={newline}{body})\n'.format(
                label=label, places=places, x=stand['x'], type=stand['type'], items=items, env=environment, number=number, newline=NEWLINE,
                body=self.with_environment('heard ! (%s %s) (λ %s.' % (stand['fact'], stand['x'], stand['j']) + NEWLINE + body))

    def loop_(self, body, state, rest):
        if self.next('loop') > 1:
            raise Refused('%s: a second loop' % self.where)
        said = dict(description_of(self.description, 'loop', 'key', self.where))
        said['values'] = said['changes']
        said['holds'] = said['keeps']
        stand = self.stand(said, state, mir.assigned(body), 'kept')
        text, there = self.reach(stand, state, said['start'])
        x, type_ = stand['x'], bracketed(stand['type'])
        values = {name: '(%s)' % part('y', k) for k, name in enumerate(stand['names'])}
        measure = re.sub(r'\$(\w+)', lambda m: values.get(m[1]) or self.parameters[m[1]].entry, said['measure'])
        before = let(stand['fact'], '%s → Type 0' % type_, 'λ %s. %s' % (x, stand['holds'])) + NEWLINE + let('μ', '%s → ℕ' % type_, 'λ y. ' + measure)
        before += let('less', '%s → %s → Type 0' % (type_, type_), 'λ a b. μ a < μ b') + let('I', '%s → List (Item 𝓤)' % type_, 'λ %s. %s' % (x, stand['items']))
        self.loop = dict(stand=stand, said=said, rest=rest, tested=False, path=list(self.path))
        turn = self.run(body, stand['state'].copy())
        self.loop = None
        return before + text + NEWLINE + 'loop-then ! 𝓣 less (InvImage·wf μ (Nat·lt-wfRel .wf)) I (λ %s leave. heard ! (%s %s) (λ %s.' % (x, stand['fact'], x, stand['j']) + NEWLINE + turn + ')) %s' % there

    def leave(self, exit_, state):
        """The end of a loop's turn: another one, or what follows the loop."""
        loop = self.loop
        if exit_ in (None, 0):
            label = ', '.join(self.path[len(loop['path']):])
            again = loop['said']['again']
            if not isinstance(again, str):
                again = description_of(again, label, 'turn', self.where)
            less = self.filled(loop['said']['less'], state)
            text, there = self.reach(loop['stand'], state, again)
            return text + 'again ! less I %s %s %s' % (loop['stand']['x'], there, bracketed(less))
        if exit_ != 1:
            raise Refused('%s: a loop is left by exit %d' % (self.where, exit_))
        self.loop, path = None, self.path
        self.path = loop['path']
        text = 'leave _ $' + NEWLINE + self.run(loop['rest'], state)
        self.loop, self.path = loop, path
        return text

    # ---- the return

    def return_(self, state):
        if 'arms' in self.description:
            proof = description_of(self.description['arms'], ', '.join(self.path) or 'end', 'arm', self.where)
        else:
            proof = description_of(self.description, 'returns', 'key', self.where)
        if isinstance(proof, dict):
            proof = pairs([description_of(proof, clause[0], 'ensures', self.where) for clause in self.function.ensures])
        value = state.cells[0]
        text = ''
        for local in range(self.count):
            if state.cells[local] is not None and state.cells[local].kind == 'array':
                text += self.free(local, state)
        order = ['dying'] + [cell(k) for k in range(self.count)] + [held(p.name) for p in self.function.references]
        text += 'keep ! (%s) $ ' % positions([state.position(label) for label in order])
        last = tuple_of([state.now[p.name] for p in self.function.mutable])
        kept = tuple_of([state.lengths[p.name] for p in self.function.mutable if p.kind == 'mut'])
        said = bracketed(self.filled(proof, state)) if self.function.ensures else 'tt'
        return text + 'ends ! ρ refl tt %s %s %s %s %s refl' % (bracketed(value.d), bracketed(value.type.is_proof(value.d, value.fact)), last, kept, said)

    # ---- the whole

    def start(self):
        state = State()
        state.now = {p.name: p.entry for p in self.function.references}
        state.lengths = {p.name: 'refl' for p in self.function.references if p.kind == 'mut'}
        state.cells = {k: None for k in range(self.count)}
        state.context = ['dying'] + [cell(k) for k in range(self.count)] + [held(p.name) for p in self.function.references]
        for k, p in enumerate(self.function.parameters, 1):
            if p.kind == 'value':
                state.cells[k] = Value('plain', p.type, p.entry, p.entry + '-is' if p.type.fact('x') else None, origin=p.name)
            elif p.kind == 'ref':
                state.cells[k] = Value('pointer', at=p.place, key=p.name)
            else:
                state.cells[k] = Value('slice', at=p.place, key=p.name, fact='(%s-room .0)' % dashed(p.name))
        return state

    def text(self):
        return self.run(self.body, self.start())
