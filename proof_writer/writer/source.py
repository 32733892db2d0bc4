"""What the writer reads of a crate's source, src/lib.rt or a program's src/main.rt: declared types, functions with their contracts, and where contracts' names come from."""
import os
import re

from .kinds import BOOL, UNIT, Declared, Opaque, UInt
from .terms import bracketed, dashed, flat_type, names

FUNCTION = re.compile(
    r'(?:extern "C" )?fn (?P<name>\w+)(?P<lives><[^>]*>)?\((?P<params>[^)]*)\)\s*(?:->\s*(?P<result>[^\n{]+?))?\s*'
    r'(?P<contract>(?:(?:requires|ensures)\b\s*\w*\s*\{.*?\}\s*)*)\n?\{\n(?P<body>.*?)\n\}\n', re.S)
CLAUSE = re.compile(r'(?:^|(?<=[\s}]))(requires|ensures)\b\s*(\w*)\s*\{(?=\s*(?:λ|⌜|do\b))')
BINDING = re.compile(r'\blet (?:mut )?(\w+)\b(?!::)|(?:\blet )?\b\w+::\w+\(([^()]*)\)\s*(?:=>|=(?!=))')
DECLARED_NAME = re.compile(r'^\s*(?:abbrev pub|unfoldable pub|pub record|pub data|pub) (\S+)')


class Parameter:
    """`kind`: 'value', 'ref' (`&mut T`), 'mut' (`&mut [T]`) or 'shr' (`&[T]`); `life`: the number of its lifetime."""

    def __init__(self, name, kind, type_, life):
        self.name = name
        self.kind = kind
        self.type = type_
        self.life = life
        self.entry = dashed(name) + '₀'
        self.place = dashed(name) + '-at'
        self.is_reference = kind != 'value'
        self.denotation = type_.denotation if kind in ('value', 'ref') else 'List ' + bracketed(type_.denotation)

    def held(self, place, now):
        form = {'ref': 'HasRef', 'mut': 'HasMut', 'shr': 'HasShr'}[self.kind]
        return '‵ (%s %s %s %s)' % (form, self.type.row, bracketed(place), bracketed(now))


class Function:
    """A function's signature and contract. `requires`, `ensures`: (name or number, the variable of the result, text)."""

    def __init__(self, crate, match):
        self.name = match['name']
        self.crate = crate.name
        self.key = dashed(self.name)
        self.parameters = []
        named = {life: k for k, life in enumerate(re.findall(r"'(\w+)", match['lives'] or ''))}
        self.lives = len(named)
        for text in re.split(r',(?![^\[]*\])', match['params']):
            if text.strip():
                self.parameters.append(self.parameter(crate, text, named))
        self.references = [p for p in self.parameters if p.is_reference]
        for p in self.references:
            p.owner = [q for q in self.references if q.life == p.life][0]
        # who has the token of its lifetime, and the `&[T]` that have the lifetime of another parameter
        self.owners = [p for p in self.references if p.owner is p]
        self.sharers = [p for p in self.references if p.owner is not p]
        self.mutable = [p for p in self.parameters if p.kind in ('ref', 'mut')]
        self.result = crate.type(match['result'].strip()) if match['result'] else UNIT
        clauses = self.clauses(crate, match['contract'])
        self.requires = [c for word, c in clauses if word == 'requires']
        self.ensures = [c for word, c in clauses if word == 'ensures']
        self.bindings = []
        for found in BINDING.finditer(match['body']):
            names = [found[1]] if found[1] else [n.strip() for n in found[2].split(',')]
            self.bindings += [n for n in names if n and n != '_' and not n[0].isdigit()]

    def parameter(self, crate, text, named):
        name, type_ = [x.strip() for x in text.split(':', 1)]
        life = re.match(r"&'(\w+) ", type_)
        type_ = re.sub(r"&'\w+ ", '&', type_)
        for start, kind in (('&mut [', 'mut'), ('&[', 'shr'), ('&mut ', 'ref')):
            if type_.startswith(start):
                type_ = type_[len(start):].rstrip(']')
                number = named[life[1]] if life else self.lives
                self.lives += not life
                return Parameter(name, kind, crate.type(type_), number)
        return Parameter(name, 'value', crate.type(type_), None)

    def clauses(self, crate, text):
        starts = list(CLAUSE.finditer(text))
        counts = {}
        out = []
        for k, start in enumerate(starts):
            end = starts[k + 1].start() if k + 1 < len(starts) else len(text)
            body = re.match(r'\s*(?:λ\s*(\S+)\.)?\s*⌜(.*)⌝\s*\}\s*$', text[start.end():end], re.S)
            counts[start[1]] = counts.get(start[1], 0) + 1
            said = re.sub(r'Rattle·(\w+)·specs\.specs\.(\w+)\.(\w+)', lambda m: self.imported(crate, *m.groups()), ' '.join(body[2].split()))
            out.append((start[1], (dashed(start[2]) or str(counts[start[1]]), body[1], said)))
        return out

    def imported(self, crate, owner, module, name):
        """A name that a clause writes with its path, as if it were imported."""
        crate.ghost[name] = ('Rattle·%s.specs.%s' % (owner, module), name)
        return name

    def says(self, clause, entry, exit_=None, result=None):
        """A clause's text over what a walk names: values at entry, values at exit, the result."""
        _, variable, text = clause
        if variable and variable != '_' and result is not None:
            text = re.sub(r'(?<![\w.\-])%s(?![\w\-])' % re.escape(variable), '\0R', text)
        for k, p in enumerate(self.parameters):
            name = '«?%s»?' % p.name
            at_entry = r'\(now \({0} \.entry\)\)|now \({0} \.entry\)|\(now {0}\)|now {0}(?!\w)|(?<![\w.\-\0]){0}(?![\w\-])'
            if exit_ is not None:
                text = re.sub(r'\(now \({0} \.exit\)\)|now \({0} \.exit\)'.format(name), '\0E%d\1' % k, text)
            text = re.sub(at_entry.format(name), '\0D%d\1' % k, text)
        text = re.sub('\0D(\\d+)\1', lambda m: bracketed(entry[self.parameters[int(m[1])].name]), text)
        if exit_ is not None:
            text = re.sub('\0E(\\d+)\1', lambda m: bracketed(exit_[self.parameters[int(m[1])].name]), text)
        return text if result is None else text.replace('\0R', bracketed(result))

    def all_say(self, clauses, entry, exit_=None, result=None):
        return [self.says(c, entry, exit_, result) for c in clauses]

    def flat_says(self, clauses, entry, exit_=None, result=None):
        return flat_type(self.all_say(clauses, entry, exit_, result))


class CrateSource:
    """The types and functions of one crate, and where the names of its contracts come from."""

    def __init__(self, sources, name):
        self.sources = sources
        self.name = name
        self.folder = os.path.join(sources.root, 'crates', name)
        source = os.path.join(self.folder, 'src', 'lib.rt')
        if not os.path.exists(source):
            source = os.path.join(self.folder, 'src', 'main.rt')
        with open(source) as file:
            self.text = re.sub(r'//[^\n]*', '', file.read()) + '\n'
        self.used_types = {m[2]: m[1] for m in re.finditer(r'^use (\w+)::(\w+);', self.text, re.M)}
        self.ghost = {}
        for m in re.finditer(r'^ghost use (\S+?)(?:\.\{([^}]*)\}| as (\w+)|);', self.text, re.M):
            for item in (m[2] or '').split(','):
                whole, _, other = item.strip().partition(' as ')
                if whole:
                    self.ghost[other or whole] = (self.outside(m[1]), item.strip())
            if m[2] is None:
                self.ghost[m[3] or m[1].split('.')[-1]] = (self.outside(m[1]), None)
        self.types = {}
        bodies = {}
        for m in re.finditer(r'(struct|enum) (\w+) \{([^}]*)\}', self.text):
            self.types[m[2]] = Declared(m[2], m[1], name)
            bodies[m[2]] = m[3]
        for type_name, body in bodies.items():
            self.read_fields(self.types[type_name], body)
        self._functions = {}

    def outside(self, module):
        """A module's path as every other crate writes it; `Names.local` makes it the crate's own again."""
        return re.sub(r'^Rattle·%s·specs\.specs\.' % re.escape(self.name), 'Rattle·%s.specs.' % self.name, module)

    def read_fields(self, declared, body):
        if declared.kind == 'struct':
            declared.fields = [(m[1], self.type(m[2])) for m in re.finditer(r'pub (\w+): ([\w\[\]; ]+)', body)]
        else:
            declared.variants = []
            for m in re.finditer(r'(\w+)(?:\(([^)]*)\))?\s*,?', body):
                fields = [x.strip() for x in (m[2] or '').split(',') if x.strip()]
                declared.variants.append((m[1], [self.type(x) for x in fields]))

    def type(self, text):
        text = text.strip()
        if text == 'bool':
            return BOOL
        if text == '()':
            return UNIT
        if text == 'usize':
            return UInt(64, 'usize')
        if re.fullmatch(r'u\d+', text):
            return UInt(int(text[1:]), text)
        if text in self.types:
            return self.types[text]
        if text in self.used_types:
            return self.sources.crate(self.used_types[text]).types[text]
        return Opaque(text)

    def function(self, name):
        if name not in self._functions:
            for m in FUNCTION.finditer(self.text):
                if m['name'] == name:
                    self._functions[name] = Function(self, m)
        if name not in self._functions:
            raise Exception('no function %s::%s' % (self.name, name))
        return self._functions[name]


class Sources:
    def __init__(self, root):
        self.root = root
        self.crates = {}

    def crate(self, name):
        if name not in self.crates:
            self.crates[name] = CrateSource(self, name)
        return self.crates[name]

    def function(self, full):
        crate, name = full.split('::')
        return self.crate(crate).function(name)


def public_names(path):
    """What a file of definitions or laws gives to others: its public names without the fields of its records."""
    with open(path) as file:
        lines = file.read().split('\n')
    found = []
    record = data = None
    for line in lines:
        indent = len(line) - len(line.lstrip())
        if line.strip():
            record = None if record is not None and indent <= record else record
            data = None if data is not None and indent <= data else data
        if data is not None and ' : ' in line:
            found += line.split(' : ')[0].split()
        m = DECLARED_NAME.match(line)
        if not m or record is not None:
            continue
        if m[1] == 'use':
            names = re.search(r'\.\{([^}]*)\}', line)
            found += [item.strip().split(' as ')[-1] for item in names[1].split(',')]
        elif m[1] != 'mod':
            found.append(m[1])
        if re.match(r'\s*pub record .* where$', line):
            record = indent
        if re.match(r'\s*pub data .* where$', line):
            data = indent
    return found


class Names:
    """The lines of import that a text needs.

    A name comes from the first of these that has it: what the writer itself writes (`prelude`), the lines by which the crates of the
    functions at hand import what their contracts name, and the files of definitions and laws that the description lists."""

    def __init__(self, sources, crate, prelude, functions, laws):
        self.sources = sources
        self.crate = crate
        self.from_ = {name: [place] for name, place in prelude.items()}
        first = set(self.from_)
        for function in functions:
            for name, (module, item) in sources.crate(function.crate).ghost.items():
                place = (self.local(module), item)
                known = self.from_.setdefault(name if item else name + '.', [])
                if name not in first and place not in known:
                    known.append(place)
        for file in laws:
            for name, place in self.in_file(file).items():
                self.from_.setdefault(name, [place])

    def in_file(self, file):
        """Where each public name of a file is: 'crate::proofs/File', or 'proofs/File' of this crate."""
        owner, _, path = file.rpartition('::')
        owner = owner or self.crate
        module = self.local('Rattle·%s.%s' % (owner, path.replace('/', '.')))
        return {name: (module, name) for name in public_names(os.path.join(self.sources.root, 'crates', owner, path + '.antt'))}

    def local(self, module):
        """A module of this crate has another path inside it."""
        for folder in ('specs', 'proofs'):
            outside = 'Rattle·%s.%s.' % (self.crate, folder)
            if module.startswith(outside):
                return 'Rattle·%s·%s.%s.%s' % (self.crate, folder, folder, module[len(outside):])
        return module

    def lines(self, text, named_modules):
        """The lines for what the text names: lists of names by module, then modules under other names."""
        by_module, others = {}, []
        for name, places in self.from_.items():
            if not any(names(text, form) for form in {name, name.strip('_') or name}):
                continue
            if len(places) > 1:
                raise Exception('%s: `%s` means %s' % (self.crate, name, ' and '.join('%s.%s' % p for p in places)))
            module, item = places[0]
            if item is None:
                others.append('use %s as %s' % (module, name[:-1]))
            else:
                by_module.setdefault(module, []).append(item)
        out = ['use %s.{%s}' % (module, ', '.join(items)) for module, items in by_module.items()]
        for line in named_modules:
            name = re.split(r'[ .{]', line.rstrip('}'))[-1]
            if line not in out + others and (names(text, name) or names(text, name + '.')):
                others.append(line)
        return out + others
