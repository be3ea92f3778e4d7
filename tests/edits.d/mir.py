"""Runs a function as rattle lowers it, to find an input at which two bodies of it do not do the same.

Numbers, arrays, structs, enums and references, as a built library's mir.json holds them (`library`) and as rattle check --generated prints
them (`printed`). A function that takes types, numbers and impls is run at those that a call gives it. The kit's functions are run as
their own libraries hold them. A run that goes out of what Rattle allows, a sum that wraps, an index past the end, ends there: of such an
input nothing is said. What a function requires is not read. What the kit's functions do with bytes of another type, floats and the like, is
not run, nor is a function that is called at no known types: Generic.
"""
import json
import random
import re
from collections import Counter
from functools import cache
from glob import glob

SEED, TRIES, STEPS, ALL_STEPS = 20, 20_000, 20_000, 100_000_000
UNRUN, USES = 400, 4  # tries that are not run before a function is given up, and the types at which it is tried
KIT = ('core', 'std_io', 'std')  # the libraries of the kit whose functions are run


class Stuck(Exception):
    """The run leaves what Rattle allows, or takes too long."""


class Generic(NotImplementedError):
    """The run comes to what takes a type that is not known, or to what of the kit's is not run."""


class Array(list):
    """An array, which a pointer to it may also enter element by element, and the bytes of an element."""

    def __init__(self, parts, size):
        super().__init__(parts)
        self.size = size


class Function:
    """The number of its parameters, the types of its locals, its body, the types that it declares, and how many types and impls it takes.

    The impls by their traits, [(trait, types)], where these are known.
    """

    def __init__(self, params, kinds, body, defs, takes=(0, 0), bounds=()):
        self.params, self.locals, self.body, self.defs, self.takes, self.bounds = params, kinds, body, defs, takes, bounds
        self.of_kit, self.instances = False, {}

    def at(self, types, dicts):
        """The function with these types and impls put in."""
        if (len(types), len(dicts)) != self.takes:
            raise Generic
        if not types and not dicts:
            return self
        key = repr((types, dicts))
        if key not in self.instances:
            made = Function(self.params, put(self.locals, types, dicts), put(self.body, types, dicts), self.defs)
            made.of_kit, self.instances[key] = self.of_kit, made
        return self.instances[key]


def put(term, types, dicts=()):
    """A term with types and impls in the place of its parameters."""
    if type(term) is not list or not term:
        return term
    head = term[0]
    if head == 'ty_param':
        return types[term[1]]
    if head == 'given':
        return dicts[term[1]]
    if head in ('ty_array_p', 'repeat_p'):
        return [head[:-2], put(term[1], types, dicts), types[term[2]][1] if types[term[2]][0] == 'ty_const' else None]
    return [put(part, types, dicts) for part in term]


# ---- a mir.json. Each term becomes a list whose head says what it is, or that word alone, as logic/Mir/Syntax.antt has them

WORDS = {'Not': 'bit_not', 'And': 'bit_and', 'Or': 'bit_or', 'Xor': 'bit_xor', 'If': 'cond', 'Opd': 'rv_opd', 'True': 'opd_true',
         'False': 'opd_false', 'Unit': 'opd_unit', 'LeadingZeros': 'count_leading_zeros', 'TrailingZeros': 'count_trailing_zeros'}
METHODS, IMPLS = {}, {}  # the methods of an impl, by its name; and an impl that takes nothing, by its trait and the types that it is for


def word(name):
    return WORDS.get(name) or re.sub(r'(?<!^)(?=[A-Z])', '_', name).lower()


def split(term):
    """A term's head, and what it is of."""
    return (term, None) if type(term) is str else next(iter(term.items()))


def kind_in(term):
    head, of = split(term)
    if head == 'Array':
        return ['ty_array', kind_in(of[0]), of[1]['Lit']] if 'Lit' in of[1] else ['ty_array_p', kind_in(of[0]), of[1]['Param']]
    if head == 'Named':
        return ['ty_named', of[0]['name'], list(map(kind_in, of[1]))]
    if head == 'Ref':
        return ['ty_ref', kind_in(of[2])]
    if head == 'Struct':
        return ['ty_struct', of[0], list(map(kind_in, of[1]))]
    return 'ty_' + head.lower() if of is None else ['ty_' + head.lower(), of]


def args_in(term):
    return list(map(kind_in, term['types'])), list(map(dict_in, term['dicts']))


def dict_in(term):
    head, of = split(term)
    return ['impl', METHODS.get(of[0], []), *args_in({'types': of[1], 'dicts': of[2]})] if head == 'Impl' else ['given', of]


def callee_in(term):
    head, of = split(term)
    if head == 'Fn':
        return ['at', of[0], *args_in(of[1])] if of[1]['types'] or of[1]['dicts'] else of[0]
    return ['method', dict_in(of[0]), of[1], *args_in(of[2])] if head == 'Method' else [word(head)]


def place_in(term):
    steps = [(*split(step),) for step in term['steps']]
    return ['place', term['local'], [[word(head), kind_in(of) if head == 'Deref' else of] for head, of in steps]]


def operand_in(term):
    head, of = split(term)
    if head == 'Copy':
        return ['copy', place_in(of)]
    if head in ('SizeOf', 'AlignOf'):
        return [word(head), kind_in(of)]
    if head == 'NumOf':
        return ['num_of', of[0], kind_in(of[1])]
    return ['int', of['width'], of['value']] if head == 'Int' else word(head)


def operator_in(term):
    head, of = split(term)
    if of is None:
        return word(head)
    return [word(head), *(word(part) if type(part) is str else part for part in (of if type(of) is list else [of]))]


def value_in(term):
    head, of = split(term)
    if head == 'AddrOf':
        return ['addr_of', place_in(of)]
    if head == 'Aggregate':
        return ['aggregate', list(map(operand_in, of))]
    if head == 'Repeat':
        return ['repeat', operand_in(of[0]), of[1]['Lit']] if 'Lit' in of[1] else ['repeat_p', operand_in(of[0]), of[1]['Param']]
    if head in ('Op1', 'Op2'):
        return [head.lower(), operator_in(of[0]), *map(operand_in, of[1:])]
    return [word(head), operand_in(of)] if head == 'Opd' else [word(head)]


def constant_in(term):
    head, of = split(term)
    if head == 'Ints':
        return ['c_ints', of['width'], of['values']]
    if head == 'Repeat':
        return ['c_repeat', constant_in(of[0]), of[1]]
    if head == 'Bool':
        return ['c_bool', str(of).lower()]
    return ['c_parts', list(map(constant_in, of))] if head == 'Parts' else ['c_int', of['width'], of['value']] if head == 'Int' else ['c_' + head.lower()]


def body_in(terms):
    """The next body of a list in which each stands before its parts."""
    head, of = split(next(terms))
    if head == 'Seq':
        return sequence(body_in(terms), body_in(terms))
    if head in ('Block', 'Loop'):
        return [word(head), body_in(terms)]
    if head == 'Assign':
        return ['assign', place_in(of[0]), value_in(of[1])]
    if head == 'If':
        return ['cond', operand_in(of), body_in(terms), body_in(terms)]
    if head == 'Call':
        return ['call', callee_in(of[0]), list(map(operand_in, of[1])), place_in(of[2])]
    if head == 'LendStatic':
        return ['lend_static', place_in(of[0]), kind_in(of[1]), constant_in(of[2])]
    if head == 'Switch':
        return ['switch', operand_in(of[0]), [[keys, body_in(terms)] for keys in of[1]] + [[None, body_in(terms)] for _ in range(of[2])]]
    return ['exit', of] if head == 'Exit' else word(head)


def sequence(first, rest):
    return ['seq', first, *(rest[1:] if rest[0] == 'seq' else [rest])]


def shape_in(term):
    head, of = split(term)
    return ['fields', list(map(kind_in, of))] if head == 'Fields' else ['variants', [list(map(kind_in, part)) for part in of]]


@cache
def library(path):
    """The functions of a mir.json, by name."""
    found = {}
    with open(path, encoding='utf-8') as file:
        items = json.load(file)
    for impl in (impl for _, item in items for impl in item['generics']['impls']):
        if impl['name'] not in METHODS and not impl['types']:
            IMPLS[impl['of']['of'], repr(list(map(kind_in, impl['of']['types'])))] = ['impl', impl['methods'], [], []]
        METHODS[impl['name']] = impl['methods']
    for name, item in items:
        found[name] = Held(item)
        found[name].of_kit = name.split('::')[0] in KIT
    return found


class Held(Function):
    """A function of a mir.json, whose parts are read when they are asked for: the kit's are many."""

    def __init__(self, item):
        self.item, takes = item, item['generics']
        bounds = [(one['of'], list(map(kind_in, one['types']))) for one in takes['bounds']]
        super().__init__(item['params'], None, None, None, (len(takes['types']), len(bounds)), bounds)
        del self.locals, self.body, self.defs

    def __getattr__(self, name):
        read = {'locals': lambda it: [kind_in(local['ty']) for local in it['locals']], 'body': lambda it: body_in(iter(it['body'])),
                'defs': lambda it: {one['name']: shape_in(one['shape']) for one in it['types']}}
        if name not in read:
            raise AttributeError(name)
        setattr(self, name, read[name](self.item))
        return self.__dict__[name]


# ---- the kit's libraries

TAILS = {}  # the functions of core and std_io, by the last two words of the names at which std hands them on


def tail(name):
    return '::'.join(name.split('::')[-2:])


@cache
def kit(folder):
    """The functions of these libraries, in their folder."""
    found = {name: function for of in KIT for name, function in library(f'{folder}/{of}.rlib/toolchain/mir.json').items()}
    names = [name for name in found if name.split('::')[0] != 'std']
    count = Counter(map(tail, names))
    TAILS.update({tail(name): name for name in names if count[tail(name)] == 1})
    impls = {}  # the impls of core, by what std calls them
    for path in glob(f'{folder}/core.rlib/lang/src/impls/*.rt'):
        with open(path, encoding='utf-8') as file:
            used = re.findall(r'pub use crate((?:::\w+)*::)(\{[^}]*\}|[^;]*) ;', file.read().replace(' :: ', '::'))
        for within, item in ((within, item.split()) for within, items in used for item in items.strip('{}').split(',') if item.strip()):
            impls['core' + within + item[0]] = item[-1]
    for name in names:
        impl, _, method = name.rpartition('::')
        if impl in impls:
            TAILS[f'{impls[impl]}::{method}'] = name
    return found


# ---- a file Mir.antt

TOKEN = re.compile(r'[(){};,]|[^\s(){};,]+')
WIDTHS = {'w8': 8, 'w16': 16, 'w32': 32, 'w64': 64, 'w128': 128}


class Printed:
    """What a file Mir.antt declares."""

    def __init__(self, text):
        self.modules = {name or path.split('.')[-1]: path for path, name in re.findall(r'^use (\S+)(?: as (\S+))?$', text, re.M)}
        self.texts = dict(re.findall(r"^(\S+) =((?:[^\n]*\n)(?:[ )}][^\n]*\n)*)", text + '\n', re.M))
        self.terms = {}

    def of(self, name):
        """The term that the name stands for."""
        if name not in self.terms:
            tokens = TOKEN.findall(self.texts[name])[::-1]
            self.terms[name] = self.term(tokens)
        return self.terms[name]

    def term(self, tokens):
        parts = []
        while tokens and tokens[-1] not in (')', ',', ';', '}'):
            parts.append(self.atom(tokens))
        if parts[0] in ('◌∷◌', 'tcons', 'ttcons', 'dcons'):
            return [parts[1], *parts[2]]
        return parts[0] if len(parts) == 1 else parts

    def atom(self, tokens):
        token = tokens.pop()
        if token == '(':
            items, closed = [self.term(tokens)], tokens.pop()
            while closed == ',':
                if tokens[-1] != ')':
                    items.append(self.term(tokens))
                closed = tokens.pop()
            return items[0] if len(items) == 1 else ['tuple', *items]
        if token == 'record':
            fields, _ = {}, tokens.pop()
            while tokens[-1] != '}':
                field, _ = tokens.pop(), tokens.pop()
                fields[field] = self.term(tokens)
                tokens.pop()
            tokens.pop()
            return fields
        if token.isdigit():
            return int(token)
        if token[0] == '"':
            return token.strip('"')
        module, _, name = token.rpartition('.')
        if not module:
            return self.of(name) if name in self.texts else name
        symbol = re.fullmatch(r'Rattle\.(?:\w+\.below\.)*(\w+)\.proofs\.(.*)\.Symbol', self.modules.get(module, ''))
        if symbol:
            return '::'.join([symbol[1], *symbol[2].split('.')])
        return [] if name in ('[]', 'tnil', 'ttnil', 'dnil') else WIDTHS.get(name, name)


def chars(codes):
    return ''.join(map(chr, codes))


def kind_of(term):
    if term[0] == 'ty_named':
        return ['ty_named', chars(term[1][1]), list(map(kind_of, term[2]))]
    if term[0] == 'ty_struct':
        return ['ty_struct', chars(term[1]), list(map(kind_of, term[2]))]
    if term[0] == 'ty_ref':
        return ['ty_ref', kind_of(term[3])]
    return [term[0], kind_of(term[1]), term[2]] if term[0] in ('ty_array', 'ty_array_p') else term


def args_of(term):
    return list(map(kind_of, term[1])), list(map(dict_of, term[2]))


def dict_of(term):
    return ['impl', term[1], *args_of(term[1:])] if term[0] == 'impl' else term


def callee_of(term):
    if type(term) is str:
        return term
    return ['method', dict_of(term[1]), term[2], *args_of(term[3])] if term[0] == 'method' else ['at', term[0], *args_of(term[1])]


def place_of(term):
    steps = [['variant' if step[0] == 'variant' else step[0], kind_of(step[1]) if step[0] == 'deref' else step[1]] for step in term[2]]
    return ['place', term[1], steps]


def operand_of(term):
    if term[0] == 'copy':
        return ['copy', place_of(term[1])]
    if term[0] == 'int_neg':
        return ['int', term[1], (1 << term[1]) - term[2]]
    if term[0] in ('size_of', 'align_of', 'num_of'):
        return [*term[:-1], kind_of(term[-1])]
    return ['int', *term[1:]] if term[0] in ('int', 'int_big') else term


def value_of(term):
    if term[0] == 'addr_of':
        return ['addr_of', place_of(term[1])]
    if term[0] == 'aggregate':
        return ['aggregate', list(map(operand_of, term[1]))]
    if term[0] in ('repeat', 'repeat_p'):
        return [term[0], operand_of(term[1]), term[2]]
    return [*term[:2], *map(operand_of, term[2:])] if term[0] in ('op1', 'op2') else [term[0], operand_of(term[1])]


def constant_of(term):
    if term[0] == 'c_repeat':
        return ['c_repeat', constant_of(term[1]), term[2]]
    if term[0] != 'c_parts':
        return term if type(term) is list else [term]
    parts, left = [], term[1]
    while left[0] == 'ccons':
        parts.append(constant_of(left[1]))
        left = left[2]
    return ['c_parts', parts]


def body_of(term):
    head = term if type(term) is str else term[0]
    if head == 'seq':
        return sequence(body_of(term[1]), body_of(term[2]))
    if head in ('block', 'loop'):
        return [head, body_of(term[1])]
    if head == 'assign':
        return ['assign', place_of(term[1]), value_of(term[2])]
    if head == 'cond':
        return ['cond', operand_of(term[1]), body_of(term[2]), body_of(term[3])]
    if head == 'call':
        return ['call', callee_of(term[1]), list(map(operand_of, term[2])), place_of(term[3])]
    if head == 'lend_static':
        return ['lend_static', place_of(term[1]), kind_of(term[2]), constant_of(term[3])]
    if head == 'switch':
        arms, left = [], term[2]
        while left != 'no_default':
            arms.append([left[1], body_of(left[2])] if left[0] == 'arm' else [None, body_of(left[1])])
            left = left[3] if left[0] == 'arm' else 'no_default'
        return ['switch', operand_of(term[1]), arms]
    return term


def printed(text):
    """The function of a file Mir.antt."""
    file = Printed(text)
    made = file.of('by_name' if 'by_name' in file.texts else 'function')
    defs = {}
    for one in file.of('table') if 'table' in file.texts else []:
        name, shape = chars(one[1]), one[-1]
        defs[name] = ['fields', list(map(kind_of, shape[1]))] if shape[0] == 'fields' else ['variants', [list(map(kind_of, part)) for part in shape[1]]]
    return Function(made['params'], [kind_of(local[1]) for local in made['locals']], body_of(made['body']), defs, (len(made['ty_params']), made['givens']))


# ---- what a body names, and its course

def named(body):
    """What a body names: functions, numbers, and words of several bytes."""
    names, numbers, words, todo = [], set(), set(), [body]
    while todo:
        term = todo.pop()
        if not isinstance(term, list) or not term:
            continue
        if term[0] == 'at' or term[0] == 'call' and type(term[1]) is str:
            names.append(term[1])
        elif term[0] == 'impl':
            names += term[1]
        elif term[0] == 'int':
            numbers.add(term[2])
        elif term[0] == 'switch':
            numbers |= {key for keys, _ in term[2] for key in keys or ()}
        elif term[0] == 'c_ints' and term[1] == 8:
            words.add(bytes(term[2]))
        elif term[0] == 'aggregate' and all(part[:2] == ['int', 8] for part in term[1]):
            words.add(bytes(part[2] for part in term[1]))
        todo += term
    return names, numbers, words


def steps(body):
    """A body's course: its branches and loops, and the steps that leave something to prove. Not what they are of."""
    head = body if type(body) is str else body[0]
    if head == 'seq':
        return sum((steps(part) for part in body[1:]), ())
    if head == 'assign':
        return leaves(body[2])
    if head == 'cond':
        return (head, steps(body[2]), steps(body[3])),
    if head == 'switch':
        return (head, *(steps(arm) for _, arm in body[2])),
    if head in ('block', 'loop'):
        return (head, steps(body[1])),
    return () if head == 'skip' else ((head, body[1]) if head == 'exit' else head,)


def leaves(value):
    op = value[1] if value[0] in ('op1', 'op2') else ''
    op = op if type(op) is str else op[0]
    return (op,) if op in ('add', 'sub', 'mul', 'div', 'rem', 'shl', 'shr', 'offset', 'cast') else ()


def copied(value):
    if type(value) is Array:
        return Array(map(copied, value) if value and isinstance(value[0], list) else value, value.size)
    return [copied(part) for part in value] if type(value) is list else value


class Machine:
    def __init__(self, functions, wraps=False):
        self.functions, self.steps, self.wraps = functions, 0, wraps
        self.defs = {name: shape for fn in functions.values() if not fn.of_kit for name, shape in fn.defs.items()}
        self.found, self.shapes, self.sizes, self.flat = {}, {}, {}, {}

    # ---- types. What is found of a type or a callee is kept by its term, which stands in a body or in `shapes`
    def parts(self, kind, variant=0):
        """The types of the fields of a struct, or of an enum's variant after its tag."""
        if kind[0] == 'ty_struct':
            return kind[2]
        shape = self.shape(kind)
        return shape[1] if shape[0] == 'fields' else shape[1][variant]

    def shape(self, kind):
        """The fields of a struct, or of an enum's variants with the tag before them, at the arguments of the type."""
        if id(kind) not in self.shapes:
            if kind[0] != 'ty_named' or kind[1] not in self.defs:
                raise Generic(kind)
            head, of = put(self.defs[kind[1]], kind[2])
            self.shapes[id(kind)] = kind, (head, of if head == 'fields' else [[['ty_int', 8], *part] for part in of])
        return self.shapes[id(kind)][1]

    def size(self, kind):
        """The bytes of a type, and the multiple at which it starts."""
        if kind[0] == 'ty_int':
            return kind[1] // 8, kind[1] // 8
        if id(kind) not in self.sizes:
            self.sizes[id(kind)] = kind, self.measured(kind)
        return self.sizes[id(kind)][1]

    def measured(self, kind):
        if kind in ('ty_bool', 'ty_unit'):
            return int(kind == 'ty_bool'), 1
        if kind[0] == 'ty_array':
            size, start = self.size(kind[1])
            return size * kind[2], start
        if kind == 'ty_ptr' or kind[0] == 'ty_ref':
            return 8, 8
        shape = self.shape(kind) if kind[0] == 'ty_named' else ('fields', self.parts(kind))
        laid = [self.laid(part) for part in (shape[1:] if shape[0] == 'fields' else shape[1])]
        start = max((start for _, start in laid), default=1)
        return -(-max((size for size, _ in laid), default=1) // start) * start, start

    def laid(self, kinds):
        end, most = 0, 1
        for kind in kinds:
            size, start = self.size(kind)
            end, most = -(-end // start) * start + size, max(most, start)
        return end, most

    def kind_at(self, fn, place):
        """The type of what stands at a place."""
        kind, variant = fn.locals[place[1]], 0
        for step in place[2]:
            if step[0] == 'deref':
                kind = step[1]
            elif step[0] == 'variant':
                variant = step[1]
            else:
                kind, variant = self.parts(kind, variant)[step[1]], 0
        return kind

    # ---- places and operands
    def address(self, frame, place):
        at, index = frame, place[1]
        for step in place[2]:
            if not 0 <= index < len(at):
                raise Stuck
            if step[0] == 'field':
                at, index = at[index], step[1]
            elif step[0] == 'deref':
                at, index = self.pointed(at[index], step[1])
            if type(at) is not list and type(at) is not Array:
                raise Stuck
        return at, index

    def pointed(self, pointer, kind):
        """Where a value of the type stands to which the pointer points. It may be the place after the last element."""
        at, index, offset = pointer
        size = self.size(kind)[0]
        while index < len(at) and type(at[index]) is Array and not self.whole(at[index], kind):
            at, index = at[index], 0
        if type(at) is Array and at.size != size:
            raise NotImplementedError('bytes of another type')
        return at, index + offset // size if size else index

    def whole(self, array, kind):
        return kind[0] == 'ty_array' and kind[2] == len(array) and self.size(kind[1])[0] == array.size

    def array(self, kind, parts):
        return Array(parts, self.size(kind[1])[0])

    def operand(self, frame, term):
        if term[0] == 'copy':
            at, index = self.address(frame, term[1])
            if not 0 <= index < len(at) or at[index] is None:
                raise Stuck
            return copied(at[index])
        if term[0] == 'int':
            return term[2]
        if term in ('opd_true', 'opd_false'):
            return term == 'opd_true'
        if term == 'opd_unit':
            return ()
        if term[0] in ('size_of', 'align_of'):
            return self.size(term[1])[term[0] == 'align_of']
        if term[0] == 'num_of':
            return term[2][1]
        raise NotImplementedError(term)

    def value(self, fn, frame, place, term):
        if term[0] == 'rv_opd':
            return self.operand(frame, term[1])
        if term[0] == 'addr_of':
            local, kind = term[1][1], fn.locals[term[1][1]]
            if frame[local] is None and kind[0] == 'ty_array' and type(kind[2]) is int:  # its elements are stored one by one
                frame[local] = Array([None] * kind[2], self.size(kind[1])[0])
            return (*self.address(frame, term[1]), 0)
        if term[0] == 'op2':
            a, b = self.operand(frame, term[2]), self.operand(frame, term[3])
            if type(term[1]) is str and term[1] in WRAPS:
                return binary(WRAPS[term[1]], a, b) & (1 << self.kind_at(fn, place)[1]) - 1
            return self.fit(fn, place, binary(term[1], a, b))
        if term[0] == 'op1':
            of = self.operand(frame, term[2])
            if term[1] == 'bit_not':
                return not of if isinstance(of, bool) else of ^ (1 << self.kind_at(fn, place)[1]) - 1
            if term[1][:3] == ['cast', 'unsigned', 'unsigned']:
                return self.fit(fn, place, int(of))
            if type(term[1]) is str and term[1] in COUNTS and term[2][0] == 'copy':
                return COUNTS[term[1]](of, self.kind_at(fn, term[2][1])[1])
            raise NotImplementedError(term)
        kind = self.kind_at(fn, place)
        if term[0] == 'aggregate':
            parts = [self.operand(frame, part) for part in term[1]]
            return self.array(kind, parts) if kind[0] == 'ty_array' else parts
        if term[0] == 'repeat' and type(term[2]) is int:
            one = self.operand(frame, term[1])
            return self.array(kind, [copied(one) for _ in range(term[2])])
        raise NotImplementedError(term)

    def fit(self, fn, place, value):
        if type(value) is int:
            most = (1 << self.kind_at(fn, place)[1]) - 1
            if not 0 <= value <= most and not self.wraps:
                raise Stuck
            value &= most
        return value

    # ---- statements
    def run(self, fn, args):
        frame = [None] * len(fn.locals)
        frame[1:1 + len(args)] = args
        try:
            self.go(fn, frame, fn.body)
        except (NotImplementedError, TypeError, ValueError, IndexError) as what:
            if fn.of_kit and not isinstance(what, Generic):
                raise Generic(what) from what
            raise
        return frame[0]

    def called(self, callee):
        """The function that a call runs, at the types and impls of the call."""
        key = callee if type(callee) is str else id(callee)
        if key not in self.found:
            head, of, *args = ('at', callee, [], []) if type(callee) is str else callee if len(callee) > 1 else (None, None)
            if head == 'method' and of[0] == 'impl' and args[0] < len(of[1]):
                of, args = of[1][args[0]], [of[2] + args[1], of[3] + args[2]]
            elif head != 'at':
                raise Generic(callee)
            self.found[key] = self.function(of).at(*args)
            if self.found[key].of_kit:
                self.defs.update(self.found[key].defs)
        return self.found[key]

    def function(self, name):
        if name in self.functions:
            return self.functions[name]
        crate, made = name.split('::')[0], '++' in name  # what drops a value of the kit's is made in each crate that needs it
        if (crate in KIT or made) and TAILS.get(tail(name)) in self.functions:
            return self.functions[TAILS[tail(name)]]
        known = any(one.split('::')[0] == crate not in KIT for one in self.functions)
        raise (NotImplementedError if known and not made else Generic)(name)

    def go(self, fn, frame, body):
        """None where the body ends, 'return', or how many blocks are still to be left."""
        self.steps += 1
        if self.steps > STEPS:
            raise Stuck
        head = body if type(body) is str else body[0]
        if head == 'seq':
            for part in body[1:]:
                left = self.go(fn, frame, part)
                if left is not None:
                    return left
        elif head == 'assign':
            value = self.value(fn, frame, body[1], body[2])
            self.store(frame, body[1], value)
        elif head == 'cond':
            return self.go(fn, frame, body[2 if self.operand(frame, body[1]) else 3])
        elif head == 'call':
            self.store(frame, body[3], self.run(self.called(body[1]), [self.operand(frame, arg) for arg in body[2]]))
        elif head == 'switch':
            return self.go(fn, frame, chosen(body[2], self.operand(frame, body[1])))
        elif head == 'return':
            return 'return'
        elif head == 'exit':
            return body[1]
        elif head == 'lend_static':
            self.store(frame, body[1], ([self.constant(body[2], body[3])], 0, 0))
        elif head == 'unreachable':
            raise Stuck
        elif head in ('block', 'loop'):
            return self.block(fn, frame, head, body[1])
        elif head != 'skip':
            raise NotImplementedError(head)
        return None

    def store(self, frame, place, value):
        at, index = self.address(frame, place)
        if not 0 <= index < len(at):
            raise Stuck
        at[index] = value

    def block(self, fn, frame, head, body):
        while True:
            left = self.go(fn, frame, body)
            if left == 'return':
                return left
            if left:
                return left - 1
            if head != 'loop':
                return None


    def constant(self, kind, term):
        if term[0] == 'c_ints':
            return self.array(kind, term[2])
        if term[0] == 'c_repeat':
            return self.array(kind, [self.constant(kind[1], term[1]) for _ in range(term[2])])
        if term[0] == 'c_parts' and kind[0] == 'ty_array':
            return self.array(kind, [self.constant(kind[1], part) for part in term[1]])
        if term[0] == 'c_parts':
            tag = term[1][0][2] if kind[0] == 'ty_named' and self.shape(kind)[0] == 'variants' else 0
            return [self.constant(*pair) for pair in zip(self.parts(kind, tag), term[1])]
        if term[0] == 'c_bool':
            return term[1] == 'true'
        if term[0] in ('c_int', 'c_unit'):
            return term[2] if term[0] == 'c_int' else ()
        raise NotImplementedError(term)

    # ---- what is seen of a value
    def seen(self, kind, value):
        """The value, with what stands behind its references in their place."""
        if value is None or self.is_flat(kind):
            return value
        if kind[0] == 'ty_ref':
            at, index = self.pointed(value, kind[1])
            return self.seen(kind[1], at[index]) if index < len(at) else None
        if kind[0] == 'ty_struct' and kind[1] == '&[]':
            at, index = self.pointed(value[0], kind[2][0][1])
            return [self.seen(kind[2][0][1], part) for part in (at[index:index + value[1]] if value[1] else [])]
        if kind[0] == 'ty_array':
            return [self.seen(kind[1], part) for part in value]
        tag = value[0] if kind[0] == 'ty_named' and self.shape(kind)[0] == 'variants' else 0
        return [self.seen(*pair) for pair in zip(self.parts(kind, tag), value)]

    def is_flat(self, kind):
        """Whether no reference stands in a value of the type."""
        if type(kind) is str or kind[0] in ('ty_int', 'ty_ref'):
            return kind[0] != 'ty_ref'
        if id(kind) not in self.flat:
            of = [kind[1]] if kind[0] == 'ty_array' else kind[2] if kind[0] == 'ty_struct' else self.shape(kind)[1]
            of = sum(of, []) if kind[0] == 'ty_named' and self.shape(kind)[0] == 'variants' else of
            self.flat[id(kind)] = kind, all(self.is_flat(part) for part in of)
        return self.flat[id(kind)][1]


def chosen(arms, key):
    for keys, body in arms:
        if keys is None or key in keys:
            return body
    raise Stuck


WRAPS = {'wrap_add': 'add', 'wrap_sub': 'sub', 'wrap_mul': 'mul'}
COUNTS = {'count_ones': lambda n, bits: bin(n).count('1'), 'count_leading_zeros': lambda n, bits: bits - n.bit_length(),
          'count_trailing_zeros': lambda n, bits: (n & -n).bit_length() - 1 if n else bits}


def binary(op, a, b):
    if type(op) is not str and op[1:] != ['unsigned'] or type(a) is tuple and op != 'offset':
        raise NotImplementedError(op)
    op = op if type(op) is str else op[0]
    if op == 'offset':
        return a[0], a[1], a[2] + b
    if op in ('div', 'rem') and b == 0 or op in ('shl', 'shr') and b > 63:
        raise Stuck
    return {'add': lambda: a + b, 'sub': lambda: a - b, 'mul': lambda: a * b, 'div': lambda: a // b, 'rem': lambda: a % b,
            'bit_and': lambda: a & b, 'bit_or': lambda: a | b, 'bit_xor': lambda: a ^ b, 'shl': lambda: a << b, 'shr': lambda: a >> b,
            'eq': lambda: a == b, 'ne': lambda: a != b, 'lt': lambda: a < b, 'le': lambda: a <= b}.get(op, unknown)()


def unknown():
    raise NotImplementedError


class Inputs:
    """Arguments of a function, of few numbers each time, so that two of them are often the same."""

    def __init__(self, machine, known, chance):
        self.machine, self.chance, self.behind = machine, chance, []
        self.words, self.bits = known.words, chance.random() < .5
        few = chance.choices(known.near, k=chance.randint(1, 6)) if chance.random() < .6 else chance.choices(range(6), k=4)
        self.pool = few + [chance.choice(few) + chance.randint(0, 3), chance.randint(0, 9)]
        if chance.random() < .3:
            self.pool += [chance.getrandbits(64), chance.getrandbits(64), 1 << chance.randrange(64)]

    def of(self, kind):
        chance = self.chance
        if kind == 'ty_bool':
            return chance.random() < .5
        if kind == 'ty_unit':
            return ()
        if kind[0] == 'ty_int':
            return self.word() if self.bits and kind[1] == 32 else chance.choice(self.pool) & (1 << kind[1]) - 1
        if kind[0] == 'ty_array':
            return self.array(kind[1], kind[2])
        if kind[0] == 'ty_ref':
            cell = [self.of(kind[1])]
            self.behind.append((kind[1], cell))
            return cell, 0, 0
        if kind[0] == 'ty_struct' and kind[1] == '&[]':
            cell = self.slice(kind[2][0][1])
            self.behind.append((kind[2][0][1], cell))
            return [(cell, 0, 0), len(cell)]
        shape = ['fields'] if kind[0] == 'ty_struct' else self.machine.shape(kind)
        if shape[0] == 'fields':
            return [self.of(part) for part in self.machine.parts(kind)]
        if not shape[1]:
            raise Generic(kind)
        case = chance.randrange(len(shape[1]))
        return [case] + [self.of(part) for part in shape[1][case][1:]]

    def word(self):
        """Few bits of a register, half of them, or most."""
        a, b, c = (self.chance.getrandbits(32) for _ in range(3))
        return self.chance.choice([a & b & c, a, a | b | c])

    def array(self, kind, length):
        chance = self.chance
        size = self.machine.size(kind)[0]
        if kind[0] != 'ty_int':
            return Array([self.of(kind) for _ in range(length)], size)
        numbers = chance.choices(self.pool, k=length)
        if length and chance.random() < .3:  # no two alike, but for one
            numbers = [self.pool[0] + n for n in range(length)]
            numbers[chance.randrange(length)] = numbers[0]
        return Array([n & (1 << kind[1]) - 1 for n in numbers], size)

    def slice(self, kind):
        chance = self.chance
        if kind == ['ty_int', 8] and chance.random() < .6:
            text = self.text()
            if text and chance.random() < .3:
                at = chance.randrange(len(text))
                text = text[:at] + bytes([chance.choice(self.pool) & 255])[:chance.randrange(2)] + text[at + 1:]
            elif chance.random() < .3:  # a line of several words
                text = b' '.join([text] + [self.text() for _ in range(chance.randint(1, 5))])
            return Array(text, 1)
        return self.array(kind, chance.choice([n for n in self.pool if n < 2000]))

    def text(self):
        number = self.chance.choice(self.pool)
        return self.chance.choice(self.words + [b'%d' % number, b'0x%x' % number, b'0X%X' % number])


class Known:
    """The numbers and words that the functions name, with the neighbours of the numbers."""

    def __init__(self, functions, bodies):
        seen, numbers, words, todo = set(), set(), set(), list(bodies)
        while todo and len(seen) < 60:
            called, more, more_words = named(todo.pop(0))
            numbers |= more
            words |= more_words
            called = {name for name in called if name in functions and name.split('::')[0] not in KIT}
            todo += [functions[name].body for name in sorted(called - seen)]
            seen |= called
        self.near = sorted({max(0, n + d) for n in numbers for d in (-1, 0, 1)} | set(range(6)) | {(1 << 64) - 1})
        self.words = sorted(words)


def done(machine, fn, seed, known):
    """What a call gives, and what it leaves behind its references."""
    inputs = Inputs(machine, known, random.Random(seed))
    args = [inputs.of(kind) for kind in fn.locals[1:1 + fn.params]]
    machine.steps = 0
    result = machine.run(fn, args)
    return machine.seen(fn.locals[0], result), [[machine.seen(kind, part) for part in cell] for kind, cell in inputs.behind]


def uses(functions, name):
    """The types and impls at which the function is tried: those of calls of it, or else a number's."""
    fn, found, todo = functions[name], {}, [one.body for one in functions.values() if not one.of_kit]
    if fn.takes == (0, 0):
        return [([], [])]
    while todo:
        term = todo.pop()
        if term[:2] == ['at', name] and not open_in(term):
            found[repr(term)] = term[2:]
        todo += [part for part in term if type(part) is list and part]
    for kind in (['ty_int', 64], ['ty_int', 8], ['ty_const', 3]):
        types = [kind] * fn.takes[0]
        dicts = [IMPLS.get((trait, repr(put(kinds, types)))) for trait, kinds in fn.bounds]
        if len(dicts) == fn.takes[1] and None not in dicts and not found:
            found[repr(types)] = types, dicts
    return list(found.values())[:USES]


def open_in(term):
    """Whether a parameter stands in the term."""
    return type(term) is list and term and (term[0] in ('ty_param', 'given', 'ty_array_p') or any(map(open_in, term)))


def differs(functions, name, other, inner=None):
    """Whether `other`, in the place of the function of that name, does something else at some input. `inner` has the closures of `other`."""
    fn, right, wrong = functions[name], Machine(functions), Machine({**functions, **(inner or {})}, wraps=True)
    for machine, defs in ((right, {**other.defs, **fn.defs}), (wrong, other.defs)):
        machine.defs.update(defs)
    known = Known({**functions, **(inner or {})}, [fn.body, other.body])
    places = uses(functions, name)
    if not places:
        raise Generic(name)
    return any(told_apart(right, wrong, fn.at(*args), other.at(*args), known, len(places)) for args in places)


def told_apart(right, wrong, fn, other, known, places):
    """Whether the two do not do the same at some input. What is not run tells nothing, unless nothing else does."""
    taken, unrun = 0, []
    for seed in range(SEED, SEED + TRIES):
        taken += right.steps + wrong.steps
        if taken > ALL_STEPS // places or len(unrun) > UNRUN:
            break
        wrong.steps = 0
        try:
            result = done(right, fn, seed, known)
        except Stuck:
            continue
        except Generic as what:
            unrun.append(what)
            continue
        try:
            if done(wrong, other, seed, known) != result:
                return True
        except Stuck:
            if right.steps < STEPS / 4:
                return True
        except Generic as what:
            unrun.append(what)
    if unrun:
        raise unrun[0]
    return False
