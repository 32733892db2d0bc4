"""A crate's MIR, read from `rt mir`: statements as tuples, and what they read and write."""
import re
import subprocess


def expression(text):
    stack = [[]]
    for token in re.findall(r'"[^"]*"|[()]|[^\s()]+', text):
        if token == '(':
            stack.append([])
        elif token == ')':
            done = stack.pop()
            stack[-1].append(done)
        else:
            stack[-1].append(token)
    return stack[0]


def items(chain):
    out = []
    while isinstance(chain, list) and chain and chain[0] in ('lcons', 'tcons', 'ttcons'):
        out.append(chain[1])
        chain = chain[2]
    return out


class Function:
    """`locals`: the type of each local; `body`: its statements."""

    def __init__(self, item):
        self.locals = [local[1] for local in items(item[4])]
        self.body = statements(item[5])


def functions(root, crate):
    run = subprocess.run(['rt', 'mir', crate], capture_output=True, text=True, cwd=root)
    found = {}

    def search(x):
        if isinstance(x, list):
            if x and x[0] == 'fn-def':
                name = x[1].strip('"')
                if name.startswith(crate + '::'):
                    found[name] = x[2]
                return
            for y in x:
                search(y)
    search(expression(run.stdout))
    if run.returncode != 0 or not found:
        raise SystemExit('rt mir %s gave no function:\n%s' % (crate, run.stderr[-2000:]))
    return found


def statements(body):
    if isinstance(body, str):
        return (body,)
    kind = body[0]
    if kind == 'seq':
        return ('seq', statements(body[1]), statements(body[2]))
    if kind == 'assign':
        return ('assign', body[1], body[2])
    if kind == 'call':
        return ('call', body[1][1][1].strip('"'), items(body[2]), body[3])
    if kind == 'if':
        return ('if', body[1], statements(body[2]), statements(body[3]))
    if kind in ('block', 'loop'):
        return (kind, statements(body[1]))
    if kind == 'exit':
        return ('exit', int(body[1]))
    if kind == 'switch':
        arms = []
        rest = body[2]
        while isinstance(rest, list) and rest[0] == 'arm':
            arms.append(([int(x) for x in items(rest[1])], statements(rest[2])))
            rest = rest[3]
        if rest != 'noDefault':
            raise Exception('a `match` on an enum with a default arm')
        return ('switch', body[1], arms)
    raise Exception(kind)


def onto(body, rest):
    """The statements of an arm and of what follows it, one after another."""
    if body[0] == 'seq':
        return onto(body[1], onto(body[2], rest))
    return ('seq', body, rest)


def steps(place):
    return items(place[2])


def goes_on(code):
    """Whether what follows this code is reached."""
    kind = code[0]
    if kind in ('return', 'exit'):
        return False
    if kind == 'seq':
        return goes_on(code[1]) and goes_on(code[2])
    if kind == 'if':
        return goes_on(code[2]) or goes_on(code[3])
    if kind == 'switch':
        return any(goes_on(arm) for _, arm in code[2])
    return True


def assigned(code):
    kind = code[0]
    if kind == 'seq':
        return assigned(code[1]) | assigned(code[2])
    if kind == 'assign':
        through = any(step[0] == 'deref' for step in steps(code[1]))
        return set() if through else {int(code[1][1])}
    if kind == 'call':
        return {int(code[3][1])}
    if kind == 'if':
        return assigned(code[2]) | assigned(code[3])
    if kind in ('block', 'loop'):
        return assigned(code[1])
    if kind == 'switch':
        return set().union(*[assigned(arm) for _, arm in code[2]])
    return set()


def operand_reads(operand):
    if isinstance(operand, list) and operand[0] == 'copy':
        return {int(operand[1][1])}
    return set()


def value_reads(value):
    kind = value[0]
    if kind == 'op2':
        return operand_reads(value[2]) | operand_reads(value[3])
    if kind == 'op1':
        return operand_reads(value[2])
    if kind == 'addrOf':
        return {int(value[1][1])}
    if kind == 'aggregate':
        return set().union(set(), *[operand_reads(x) for x in items(value[1])])
    return operand_reads(value[1])


def live(code, written=frozenset()):
    """The locals that are read before they are written, and those that are surely written."""
    kind = code[0]
    if kind == 'seq':
        first, written = live(code[1], written)
        second, written = live(code[2], written)
        return first | second, written
    if kind == 'assign':
        reads = value_reads(code[2])
        local = int(code[1][1])
        if any(step[0] == 'deref' for step in steps(code[1])):
            return (reads | {local}) - written, written
        return reads - written, written | {local}
    if kind == 'call':
        reads = set().union(set(), *[operand_reads(x) for x in code[2]])
        return reads - written, written | {int(code[3][1])}
    if kind == 'if':
        first, one = live(code[2], written)
        second, other = live(code[3], written)
        both = one & other if goes_on(code[2]) and goes_on(code[3]) else one if goes_on(code[2]) else other
        return operand_reads(code[1]) - written | first | second, both
    if kind in ('block', 'loop'):
        return live(code[1], written)[0], written
    if kind == 'switch':
        reads = operand_reads(code[1]) - written
        for _, arm in code[2]:
            reads |= live(arm, written)[0]
        return reads, written
    if kind == 'return':
        return {0} - written, written
    return set(), written


def calls(code):
    """The functions that are called, each once, in the order of the text."""
    found = []

    def search(x):
        if isinstance(x, tuple):
            if x and x[0] == 'call' and x[1] not in found:
                found.append(x[1])
            for y in x[1:]:
                search(y)
        elif isinstance(x, list):
            for y in x:
                search(y)
    search(code)
    return found
