"""The files that are written: a callee's contract, the walk of a function, the walks of a cycle."""
import os

from .common import NEWLINE, Refused, let
from .source import Names, public_names
from .terms import (bracketed, capitals, dashed, flat, listed, of_pairs, pairs, pairs_type, part, tuple_of)
from .walk import Walk
from . import mir

# how the first line of a written file begins
WRITTEN = '-- Written by proof_writer/write'
MODEL = '{M : Type 1} (𝓤 : URA M) (H : Heap 𝓤) (A : Atoms 𝓤)'
TABLES = '(tablesOf 𝓤 H 𝓜 (tables 𝓤 H 𝓜 𝓡 code.env))'
ALWAYS = ['use prog.Wp.{afterTurn}', 'use contract.Running.{tablesOf}', 'use denote.Struct.Laws as LL', 'use denote.Enum.Laws as EL', 'use mir.Facts.{T-not-not}']

# what a contract's file names beside what the contract names
CONTRACT_WORDS = ['Terms', 'stated-as', 'val', 'shr', 'same', 'mut', 'ref′', 'of-number', 'of-truth', 'of-nothing', 'of-struct', 'of-enum', 'w8', 'w16', 'w32', 'w64',
                  'u8', 'u16', 'u32', 'u64', 'usize', '[]', '_∷_', 'Known', 'bound-at', 'rule-of', 'cited']


class Crate:
    """A crate with functions that are proved by hand."""

    def __init__(self, sources, name, description, contracts):
        self.sources = sources
        self.name = name
        self.source = sources.crate(name)
        self.description = description
        self.contracts = contracts          # the crate that has the contract file of each function: {'crate::f': crate}
        self.mir = mir.functions(sources.root, name)
        self.written = {}
        self.walk_words = public_names(os.path.join(sources.root, 'crates/reference_laws/proofs/Walk.antt'))
        self.header = WRITTEN + ' from proof_writer/descriptions/%s.py, from the code and its contracts.\n' % name

    def default(self, type_):
        return description_default(self.description, type_)

    def path(self, *parts):
        return '/'.join(('crates', self.name, 'proofs') + parts)

    # ---- modules

    def proofs(self, crate):
        return 'Rattle·%s·proofs.proofs' % crate if crate == self.name else 'Rattle·%s.proofs' % crate

    def contract_module(self, function):
        crate = self.contracts['%s::%s' % (function.crate, function.name)]
        return '%s.Call%s' % (self.proofs(crate), capitals(function.name))

    def type_lines(self, functions, walk=None):
        """Imports of each declared type that these functions or a walk's locals have."""
        found = {}

        def add(type_):
            if getattr(type_, 'kind', None) in ('struct', 'enum') and type_.name not in found:
                found[type_.name] = type_
                inner = [t for _, t in type_.fields] if type_.kind == 'struct' else [t for _, ts in type_.variants for t in ts]
                for t in inner:
                    add(t)
            if getattr(type_, 'kind', None) == 'array':
                add(type_.element)
        for f in functions:
            for type_ in [p.type for p in f.parameters] + [f.result]:
                add(type_)
        for local in range(walk.count if walk else 0):
            add(walk.local_type(local))
        lines = []
        for name, type_ in sorted(found.items()):
            own = type_.crate == self.name
            specs = 'Rattle·%s·specs.specs' % self.name if own else 'Rattle·%s.specs' % type_.crate
            proofs = self.proofs(type_.crate)
            lines += ['use %s.declared.%s.{%s}' % (specs, name, name), 'use %s.%s as %s-T' % (proofs, name, name), 'use %s.%s.Laws as %s-L' % (proofs, name, name)]
            if type_.kind == 'enum':
                lines.append('use %s.declared.%s.the-variants as %s-V' % (specs, name, name))
        return lines

    # ---- a callee's contract

    def sort(self, p):
        if p.kind == 'value':
            return 'val (%s)' % p.type.data
        form = {'ref': 'ref′', 'mut': 'mut', 'shr': 'shr' if p.owner is p else 'same'}[p.kind]
        return '%s %s' % (form, p.type.row)

    def write_contract(self, function):
        if [p.life for p in function.owners] != sorted(p.life for p in function.owners):
            raise Refused('%s: its lifetimes are not in the order of its parameters' % function.name)
        if any(p.owner is not function.references[0] for p in function.sharers):
            raise Refused("%s: a lifetime is shared that is not the first reference's" % function.name)
        entry = {p.name: p.entry for p in function.parameters}
        last = {p.name: part('z', function.mutable.index(p)) if p in function.mutable else p.entry for p in function.parameters}
        values = ' '.join(p.entry for p in function.parameters)
        requires = listed([bracketed(x) for x in function.all_say(function.requires, entry)])
        ensures = listed([bracketed(x) for x in function.all_say(function.ensures, entry, last, 'r')])
        key = function.key
        body = 'abbrev pub terms : Terms\nterms = stated-as %s-F.Symbol.name %s\n' % (key, bracketed(function.result.data))
        body += '    (%s)\n' % listed([self.sort(p) for p in function.parameters])
        body += '    (%s%s)\n' % ('λ %s. ' % values if values else '', requires)
        body += '    (λ %s. %s)\n\n' % (' '.join([values, 'r', 'z']).strip(), ensures)
        body += 'pub known : Known terms %s-F.signature (λ M 𝓤 H A at-mem run. %s-F.spec 𝓤 H A at-mem run)\n' % (key, key)
        body += 'known M 𝓤 H 𝓜 𝓖 𝓡 γ r at met x cs = cited 𝓤 H _ 𝓜 𝓡 γ (terms .name) r at met (bound-at (rule-of terms x .pars) cs)\n'
        names = Names(self.sources, self.name, prelude('Call', CONTRACT_WORDS), [function], [])
        module = '%s.%s' % (self.proofs(function.crate), function.name)
        lines = names.lines(body, self.type_lines([function]) + ['use %s as %s-F' % (module, key)])
        head = '-- The contract of `%s::%s`, for its own walk and for the walks that call it: its symbol and its result; what is passed; what is asked of that; what is said of it, of the result r and of the last values z. `known` shows that it is the contract.\n' % (function.crate, function.name)
        self.written[self.path('Call%s.antt' % capitals(function.name))] = self.header + head + '\n'.join(lines) + '\n\n' + body

    # ---- a walk

    def walk(self, function, description, cycle=None):
        """The walk of a function as a module of its file, and the lines of import that it may need."""
        walk = Walk(self, function, description, cycle)
        key = function.key
        steps = walk.text()
        callees = [self.sources.function(full) for full in walk.callees]
        inside = [f for f in callees if cycle and f.name in cycle['members']]
        outside = [f for f in callees if f not in inside]
        code = '%s.%s.Code' % (self.proofs(self.name), cycle['file'] if cycle else function.name)
        modules = ['use %s as %s-C' % (self.contract_module(f), f.key) for f in [function] + callees]
        modules += ['use %s as code' % code, 'use %s as mir-of' % (code + ('.' + function.name if cycle else '.Mir'))]
        faces = self.faces(function)
        given = listed_inputs(function)
        known = ''.join(' (known-%s : Knows 𝓤 H A (𝓣 .C) %s-C.terms)' % (f.key, f.key) for f in outside)
        many = len(function.requires) > 2
        entry = {p.name: p.entry for p in function.parameters}
        req = flat([of_pairs('reqs', k, len(function.requires)) for k in range(len(function.requires))]) if many else None
        req_type = function.flat_says(function.requires, entry) if many else None
        own = 'self-%s' % inside[0].key if len(inside) == 1 else 'self'
        text = ''.join(cases(enum) for enum in sorted(walk.enums, key=lambda e: e.name))
        text += self.self_type(walk, inside) if inside else ''
        blocks = ' '.join(walk.blocks())
        rule = 'rule-of %s-C.terms %s' % (key, given)
        head = 'module _ %s (W : Given 𝓤 H A) (𝓣 : Tables 𝓤 H)%s' % (MODEL, known)
        if walk.lemmas or function.sharers:
            facts = faces + [('same-' + dashed(p.name), '%s .κ ≡ %s .κ' % (p.place, p.owner.place)) for p in function.sharers]
            facts += [(own, 'Self 𝓤 H A (𝓣 .C) %s' % given)] if inside else []
            facts.append(('reqs' if many else 'req', pairs_type(function.all_say(function.requires, entry))))
            text += head + '\n    ' + ' '.join('(%s : %s)' % f for f in facts) + ' where\n'
            text += '  abbrev req : %s\n  req = %s\n\n' % (req_type, req) if many else ''
            text += '  abbrev ρ : Rule\n  ρ = %s\n\n' % rule + '\n'.join(walk.lemmas) + ('\n' if walk.lemmas else '')
            text += '  pub walk : WalkIn 𝓤 H A W (𝓣 .C) (𝓣 .Λ) %s %s-C.terms %s\n  unfolding afterTurn\n  walk %s =\n      %s\n' % (walk.code, key, given, blocks, walk.with_environment(steps))
        else:
            goal = 'WalkFor 𝓤 H A W (𝓣 .C) (𝓣 .Λ) %s %s-C.terms' % (walk.code, key)
            goal = '(λ x. Self 𝓤 H A (𝓣 .C) x → %s x)' % goal if inside else '(%s)' % goal
            arguments = [name for name, _ in faces] + ([own] if inside else []) + ['reqs' if many else 'req']
            before = (let('req', req_type, req) if many else '') + let('ρ', 'Rule', rule) + NEWLINE
            text += head + ' where\n  pub walk : Facing (%s-C.terms .sorts) %s\n  unfolding afterTurn\n  walk %s %s =\n      %s\n' % (key, goal, ' '.join(arguments), blocks, before + walk.with_environment(steps))
        return walk, text, modules, callees, outside

    def faces(self, function):
        """Each parameter, and what is known of it: name and type."""
        out = []
        for p in function.parameters:
            key = dashed(p.name)
            if p.is_reference:
                out += [(p.place, 'At'), (p.entry, p.denotation)]
                if p.kind != 'ref':
                    out += [(key + '-room', 'SizeOf %s (%s .n)' % (p.type.row, p.place)), (key + '-n', '%s .n ≡ length %s' % (p.place, p.entry))]
            else:
                out += [(p.entry, p.denotation), (p.entry + '-is', p.type.fact(p.entry) or 'Unit {0}')]
        return out

    def self_type(self, walk, inside):
        """What is known of the cycle below what is passed."""
        if len(inside) > 1:
            raise Refused('%s: two functions of its cycle are called' % walk.where)

        def measure(function, x):
            return walk.measure(function, {p.name: '(%s)' % (part(x, k) + (' .1' if p.is_reference else '')) for k, p in enumerate(function.parameters)})
        callee = inside[0]
        return '-- what is known of the cycle below what is passed\nabbrev pub Self : %s (C : Calls 𝓤 H) → Inputs (%s-C.terms .sorts) → Type 1\nSelf 𝓤 H A C x = (x′ : Inputs (%s-C.terms .sorts)) → %s < %s → Met 𝓤 H A (rule-of %s-C.terms x′) C\n\n' % (
            MODEL, walk.function.key, callee.key, measure(callee, 'x′'), measure(walk.function, 'x'), callee.key)

    def cited(self, function):
        """A callee's theorem, as what a walk knows of it."""
        return ' (%s-C.known _ 𝓤 H 𝓜 𝓖 𝓡 code.env _ code.calls-%s·%s (%s-F.Met.met 𝓤 H 𝓜 𝓖 𝓡))' % (function.key, dashed(function.crate), function.key, function.key)

    def cited_modules(self, functions):
        return ['use %s.%s as %s-F' % (self.proofs(f.crate), f.name, f.key) for f in functions]

    def write_walk(self, name, description):
        function = self.source.function(name)
        walk, text, modules, callees, outside = self.walk(function, description)
        key = function.key
        own = '%s.%s' % (self.proofs(self.name), name)
        modules += ['use %s.Statement as stated' % own, 'use %s.Key as key' % own] + self.cited_modules(outside)
        known = ''.join(self.cited(f) for f in outside)
        text += '\npub %s-spec : {M : Type 1} → stated.statement M\nunfolding code.routine tablesOf\n%s-spec 𝓤 H 𝓜 𝓖 𝓡 y =\n' % (key, key)
        given = '𝓤 H 𝓜 𝓖 𝓡 code.env key.name code.function (code.unfolded 𝓤 H 𝓜 𝓡) %s-C.terms' % key
        if function.sharers:
            text += self.with_shared_lifetime(function, given, known)
        else:
            text += '    proves %s (y .0 .0) (y .0 .1) (y .0 .3) (y .0 .4) %s\n    (walk 𝓤 H (𝓖 .A) (givenOf 𝓤 H 𝓜 𝓖) %s%s)\n' % (given, takes(function), TABLES, known)
        head = '-- The walk of `%s::%s`.\n' % (self.name, name)
        self.finish(self.path(name, 'Proof.antt'), head, text, [function] + callees, walk, modules)

    def with_shared_lifetime(self, function, given, known):
        if function.sharers != [function.parameters[1]] or function.parameters[1].owner is not function.parameters[0]:
            raise Refused('%s: only the second parameter may have the lifetime of the first' % function.name)
        arguments = []
        for k, p in enumerate(function.parameters):
            x, g = part('x', k), part('g', k)
            if p.is_reference:
                arguments.append('(%s .0) (%s .1)' % (x, x) + (' (%s .0 .1) refl' % g if p.kind != 'ref' else ''))
            else:
                arguments.append('(%s) (%s)' % (x, p.type.fact_of(g) if p.type.fact('x') else 'tt'))
        share = '(y .0 .1 .0)'
        rest = '(toks 𝓤 (𝓖 .A) %d (y .0 .0 .1) (y .0 .1 .1))' % (function.lives - 1)
        token = '𝓤 H (𝓖 .A) (givenOf 𝓤 H 𝓜 𝓖) (y .0 .0 .0) %s %s' % (share, rest)
        sorts = '%s-C.terms .sorts' % function.key
        return ('    let κs : Lfts (refs ({sorts})) = (y .0 .0 .0, y .0 .0) in\n    let qs : Shares (refs ({sorts})) = (PosShare·left {share}, (PosShare·right {share}, y .0 .1 .1)) in\n'
                '    let x : Inputs ({sorts}) = inputs ({sorts}) κs qs (y .0 .3) in\n'
                '    proves-by {given} κs qs (y .0 .3) (y .0 .4) (toks 𝓤 (𝓖 .A) {lives} (y .0 .0) (y .0 .1)) (halves {token}) (whole-again {token}) {takes}\n'
                '    (λ g. walk 𝓤 H (𝓖 .A) (givenOf 𝓤 H 𝓜 𝓖) {tables}{known}\n    {arguments} refl)\n').format(
                    sorts=sorts, share=share, given=given, lives=function.lives, token=token, takes=takes(function), tables=TABLES, known=known, arguments=' '.join(arguments))

    def finish(self, path, head, text, functions, walk, modules, before=''):
        names = Names(self.sources, self.name, prelude('Walk', self.walk_words), functions, self.description.LAWS)
        lines = names.lines(text, ALWAYS + self.type_lines(functions, walk) + modules)
        self.written[path] = self.header + head + before + '\n'.join(lines) + '\n\n' + text

    # ---- a cycle of calls

    def write_cycle(self, measures, descriptions):
        members = sorted(measures)
        file = ''.join('+' + m for m in members)
        cycle = dict(members=members, measures=measures, file=file)
        base = '%s.%s' % (self.proofs(self.name), file)
        functions = [self.source.function(m) for m in members]
        walks, callees = {}, []
        modules = ['use %s as cycle' % base, 'use %s.Code as code' % base]
        for f in functions:
            walk, text, its_modules, its_callees, outside = self.walk(f, descriptions[f.name], cycle)
            self.finish(self.path(file, 'Proof', 'Of%s.antt' % capitals(f.name)), '-- The walk of `%s::%s`.\n' % (self.name, f.name), text, [f] + its_callees, walk, its_modules)
            walks[f.name] = (walk, outside)
            own = '%s.%s' % (self.proofs(self.name), f.name)
            modules += ['use %s.Proof.Of%s as %s-W' % (base, capitals(f.name), f.key), 'use %s as %s-F' % (own, f.key), 'use %s as %s-C' % (self.contract_module(f), f.key), 'use %s.Key as %s-key' % (own, f.key)]
            callees += [c for c in outside if c not in callees]
        for f in callees:
            modules += ['use %s as %s-C' % (self.contract_module(f), f.key)]
        modules += self.cited_modules(callees)
        text = ''
        for f in functions:
            at = walks[f.name][0].measure(f, {p.name: '(%s)' % (part('y .0 .3', k) + (' .now' if p.is_reference else '')) for k, p in enumerate(f.parameters)})
            text += 'abbrev μ-{k} : {{M : Type 1}} (𝓤 : URA M) (H : Heap 𝓤) (A : Atoms 𝓤) (at-mem : Memory → SProp 𝓤) (run : Routine → Fun 𝓤) → tripleOf 𝓤 H A {k}-F.signature ({k}-F.spec 𝓤 H A at-mem run) .Ghost → ℕ\nμ-{k} 𝓤 H A at-mem run y = {at}\n\n'.format(k=f.key, at=at)
        text += 'pub %s-spec : {M : Type 1} → cycle.statement M\nunfolding %s tablesOf\n%s-spec {M} 𝓤 H 𝓜 𝓖 𝓡 =\n' % (dashed(file), ' '.join('code.%s-routine' % f.key for f in functions), dashed(file))
        text += '    let T : Tables 𝓤 H = %s in\n' % TABLES[1:-1]
        text += ''.join('    let m-{k} : tripleOf 𝓤 H (𝓖 .A) {k}-F.signature ({k}-F.spec 𝓤 H (𝓖 .A) (𝓜 .mem) (𝓡 .run)) .Ghost → ℕ = μ-{k} 𝓤 H (𝓖 .A) (𝓜 .mem) (𝓡 .run) in\n'.format(k=f.key) for f in functions)
        measured = pairs(['measured 𝓤 H (𝓖 .A) (record {{ signature = {k}-F.signature; run = 𝓡 .run code.{k}-routine; spec = {k}-F.spec 𝓤 H (𝓖 .A) (𝓜 .mem) (𝓡 .run) }}) m-{k}'.format(k=f.key) for f in functions])
        text += '    mutual-elim 𝓤 H (𝓖 .A) (cycle.functions 𝓤 H (𝓖 .A) (𝓜 .mem) (𝓡 .run)) _<_ (Nat·lt-wfRel .wf) %s\n' % measured
        for f in functions:
            text += self.member(f, functions, *walks[f.name])
        self.finish(self.path(file, 'Proof.antt'), '-- The cycle of %s.\n' % ', '.join('`%s`' % m for m in members), text, functions, None, modules,
                    before=''.join('mod Of%s\n' % capitals(m) for m in members))

    def member(self, f, functions, walk, outside):
        """A function of a cycle, under what is known of the cycle below its measure."""
        callee = next(c for c in functions if '%s::%s' % (self.name, c.name) in walk.callees)
        k = functions.index(callee)
        below = 'below' + (' .1' * k + ('' if k == len(functions) - 1 else ' .0'))
        given = '(bound-at (rule-of %s-C.terms x .pars) cs)' % callee.key
        self_ = '(λ x lt cs. {b} (m-{c} {y}) (subst (λ (s : ℕ). m-{c} {y} < s) e lt) {y} refl)'.format(b=below, c=callee.key, y=given)
        return ('    (λ t below. at-on 𝓤 H (𝓖 .A) {k}-F.signature ({k}-F.spec 𝓤 H (𝓖 .A) (𝓜 .mem) (𝓡 .run)) (WpFn 𝓤 H (T .C) (T .Λ) code.{k}-function) (T .C {k}-key.name) (code.{k}-unfolded 𝓤 H 𝓜 𝓡) m-{k} t (λ y e.\n'
                '    walks-under 𝓤 H (𝓖 .A) (givenOf 𝓤 H 𝓜 𝓖) (T .C) (T .Λ) code.{k}-function {k}-C.terms (y .0 .0) (y .0 .1) (y .0 .3) ({k}-W.Self 𝓤 H (𝓖 .A) (T .C)) {self_} (y .0 .4) {takes}\n'
                '    ({k}-W.walk 𝓤 H (𝓖 .A) (givenOf 𝓤 H 𝓜 𝓖) T{known})))\n').format(k=f.key, self_=self_, takes=takes(f), known=''.join(self.cited(c) for c in outside))

    def write_all(self):
        """Every file of the crate. The contracts are those of the functions that are walked, or called from a walk."""
        for full, crate in self.contracts.items():
            if crate == self.name:
                self.write_contract(self.sources.function(full))
        for name, description in self.description.WALKS.items():
            self.write_walk(name, description)
        for measures, descriptions in getattr(self.description, 'CYCLES', []):
            self.write_cycle(measures, descriptions)
        self.written[self.path('Lib.antt')] = self.library()

    def library(self):
        """proofs/Lib.antt with a line for each contract."""
        path = os.path.join(self.sources.root, self.path('Lib.antt'))
        lines = []
        if os.path.exists(path):
            with open(path) as file:
                lines = file.read().splitlines()
        wanted = ['pub mod Call%s' % capitals(full.split('::')[1]) for full, crate in self.contracts.items() if crate == self.name]
        lines = [line for line in lines if not line.startswith('pub mod Call') or line in wanted]
        return '\n'.join(lines + [line for line in wanted if line not in lines]) + '\n'


def prelude(file, words):
    """The names that the writer writes, from a file of the crate of laws."""
    return {word: ('Rattle·reference_laws.proofs.' + file, word) for word in words}


def description_default(description, type_):
    defaults = getattr(description, 'DEFAULTS', {})
    if type_.denotation not in defaults:
        raise Refused('no default of %s for an element that is read' % type_.denotation)
    return defaults[type_.denotation]


def listed_inputs(function):
    return tuple_of(['(%s, %s)' % (p.place, p.entry) if p.is_reference else p.entry for p in function.parameters])


def takes(function):
    return tuple_of(['refl' for p in function.parameters if not p.is_reference])


def cases(enum):
    """A value of an enum is one of its variants."""
    types, clauses = [], ''
    for k, (variant, fields) in enumerate(enum.variants):
        variables = ['a%d' % j for j in range(len(fields))]
        pattern = ' '.join(['%s-V.%s' % (enum.name, variant)] + variables)
        types.append(''.join('(%s : %s) × ' % (v, t.denotation) for v, t in zip(variables, fields)) + '(r ≡ %s)' % pattern)
        value = '(%s)' % ', '.join(variables + ['refl']) if fields else 'refl'
        if k < len(enum.variants) - 1:
            value = 'inl ' + bracketed(value)
        for _ in range(k):
            value = 'inr ' + bracketed(value)
        clauses += 'cases-%s %s = %s\n' % (enum.name, bracketed(pattern), value)
    sum_ = bracketed(types[-1])
    for type_ in reversed(types[:-1]):
        sum_ = '(%s ⊎ %s)' % (bracketed(type_), sum_)
    return 'cases-%s : (r : %s) → %s\n' % (enum.name, enum.name, sum_) + clauses + '\n'
