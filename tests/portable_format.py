"""A reading of the portable format, for the tests: what a file is the file of, or its first fault, and the file of a grammar.

docs/PORTABLE.md has the format. `read` answers a Grammar or a Fault; `write` gives version 2."""
from dataclasses import dataclass, field
from itertools import groupby, product

RESERVED = set("""abstract case cat concrete flags fun in incomplete instance interface let lin lincat lindef linref of
open oper overload param resource table variants where with Str Type PType Ints Predef data def pre strs printname
transfer union reuse Float""".split())
SPACE = {*range(0x09, 0x0e), 0x20, 0x85, 0xa0, 0x1680, *range(0x2000, 0x200b), 0x2028, 0x2029, 0x202f, 0x205f, 0x3000}
MOST_CASES = {1: 65_536, 2: 1_048_576}
MOST_NONTERMINALS, MOST_CHOICES, MOST_CATEGORIES = 1_073_741_826, 8_388_608, 16_384
LARGEST_DIMENSION, MOST_LEVELS = 65_536, 201


class Fault(Exception):
    """The first fault of a file: a rule, a place, and for `Invalid` the flaw."""

    def __init__(self, rule, at, flaw=None):
        self.rule, self.at, self.flaw = rule, at, flaw

    def line(self, name):
        """The refusal of an import of the file of that name."""
        return f"refused {self.rule}: {name}, {self.at}" + (f", {self.flaw}" if self.flaw else "")


@dataclass
class Production:
    """`args` are tuples of nonterminals: one of each may stand there."""
    fun: int
    args: tuple
    result: int
    seqs: tuple
    at: int = 0


@dataclass
class Language:
    """`infos` has for each listed category its number of cases and its dimension. Defs are (nonterminal, sequences),
    refs (nonterminal, sequence); a sequence is a tuple of words and of pairs of an argument and a component."""
    name: str
    infos: list
    prods: list = field(default_factory=list)
    defs: list = field(default_factory=list)
    refs: list = field(default_factory=list)
    unused: list = field(default_factory=list)

    def category(self, nonterminal):
        """The category of a nonterminal, None past the last one."""
        first = 2
        if nonterminal < 2:
            return nonterminal
        for number, (cases, _) in enumerate(self.infos, 2):
            if nonterminal < first + cases:
                return number
            first += cases
        return None

    def total(self):
        return 2 + sum(cases for cases, _ in self.infos)

    def dimension(self, category):
        return 1 if category < 2 else self.infos[category - 2][1]


@dataclass
class Grammar:
    """A category is (name, types), a function (name, types, result), a type (category, terms). A term is a function's
    number with its terms, ("var", n), ("int", n) or ("str", text)."""
    name: str
    start: int
    cats: list
    funs: list
    languages: list


def is_name(text):
    """Whether the text is an identifier that is no reserved word."""
    def goes_on(c):
        return c == "'" or ("a" + c).isidentifier()
    return (text != "" and (text[0] == "_" or text[0].isidentifier()) and all(map(goes_on, text)) and text != "_"
            and text not in RESERVED)


def is_word(text):
    return text != "" and not any(ord(c) in SPACE for c in text)


class Reader:
    """The fields of a file, in order."""

    def __init__(self, data):
        self.data, self.at = data, 0

    def take(self, length):
        if self.at + length > len(self.data):
            raise Fault("Short", self.at)
        self.at += length
        return self.data[self.at - length:self.at]

    def number(self):
        return int.from_bytes(self.take(4), "big")

    def below(self, limit):
        at = self.at
        number = self.number()
        if number >= limit:
            raise Fault("BadNumber", at)
        return number

    def text(self, is_good):
        length, at = self.number(), self.at
        raw = self.take(length)
        try:
            text = raw.decode("utf-8")
        except UnicodeDecodeError:
            raise Fault("BadText", at) from None
        if not is_good(text):
            raise Fault("BadText", at)
        return text

    def ascending(self, many, one, key):
        """So many items, each greater than the one before."""
        items, last = [], None
        for _ in range(many):
            at = self.at
            item = one()
            this = key(item, self.data[at:self.at])
            if last is not None and this <= last:
                raise Fault("BadOrder", at)
            last = this
            items.append((item, at))
        return items

    # the abstract part

    def term(self, funs, variables, level):
        at = self.at
        tag = self.take(1)[0]
        if level > MOST_LEVELS:
            raise Fault("BadNumber", at)
        if tag == 0:
            function = self.below(funs)
            return function, [self.term(funs, variables, level + 1) for _ in range(self.number())]
        if tag == 1:
            return "var", self.below(variables)
        if tag == 2:
            return "int", int.from_bytes(self.take(16), "big")
        if tag == 3:
            return "str", self.text(is_word)
        raise Fault("BadTag", at)

    def type(self, cats, funs, variables):
        category = self.below(cats + 2)
        return category, [self.term(funs, variables, 1) for _ in range(self.number())]

    def types(self, cats, funs):
        return [self.type(cats, funs, variables) for variables in range(self.number())]

    def abstract(self):
        name, start_at = self.text(is_name), self.at
        start, cats_at = self.number(), self.at
        cats = self.number()
        if start >= cats + 2:
            raise Fault("BadNumber", start_at)
        if cats > MOST_CATEGORIES:
            raise Fault("BadNumber", cats_at)
        funs = self.number()

        def category():
            return self.text(lambda t: is_name(t) and t not in ("Int", "String")), self.types(cats, funs)

        def function():
            name, args = self.text(is_name), self.types(cats, funs)
            return name, args, self.type(cats, funs, len(args))

        by_name = lambda item, _: item[0].encode()
        return name, start, self.ascending(cats, category, by_name), self.ascending(funs, function, by_name)

    # a language

    def infos(self, version, cats):
        infos, total = [], 2
        for _ in range(cats):
            at = self.at
            cases = self.number()
            total += cases
            if not 1 <= cases <= MOST_CASES[version] or (version == 2 and total > MOST_NONTERMINALS):
                raise Fault("BadNumber", at)
            infos.append((cases, self.below(LARGEST_DIMENSION + 1)))
        return infos

    def symbol(self, dims):
        """A symbol; where dimensions of arguments are given its component is one of theirs."""
        at = self.at
        tag = self.take(1)[0]
        if tag == 0:
            return self.text(is_word)
        if tag != 1:
            raise Fault("BadTag", at)
        if dims is None:
            return self.number(), self.number()
        argument = self.below(len(dims))
        return argument, self.below(dims[argument])

    def sequence(self, dims=None):
        return tuple(self.symbol(dims) for _ in range(self.number()))

    def group(self, language):
        at = self.at
        many = self.number()
        if many < 2:
            raise Fault("BadNumber", at)
        members = []
        for _ in range(many):
            at = self.at
            member = self.number()
            category = language.category(member)
            if category is None or (members and category != language.category(members[0])):
                raise Fault("BadNumber", at)
            if members and member <= members[-1]:
                raise Fault("BadOrder", at)
            members.append(member)
        return tuple(members)

    def language(self, version, funs, cats):
        return LanguageReader(self, version, funs, cats).read()

    def whole(self):
        if self.take(4) != b"GFPT":
            raise Fault("BadMagic", 0)
        at, version = self.at, self.number()
        if version not in (1, 2):
            raise Fault("BadVersion", at)
        name, start, cats, funs = self.abstract()
        languages = self.ascending(self.number(), lambda: self.language(version, [f for f, _ in funs], len(cats)),
                                   lambda item, _: item.name.encode())
        if self.at < len(self.data):
            raise Fault("TooLong", self.at)
        grammar = Grammar(name, start, [c for c, _ in cats], [f for f, _ in funs], [l for l, _ in languages])
        check_types(grammar, [at for _, at in cats], [at for _, at in funs])
        for language in grammar.languages:
            check_language(language, version)
        return grammar


class LanguageReader:
    """The fields of a language."""

    def __init__(self, reader, version, funs, cats):
        self.reader, self.version, self.funs, self.cats = reader, version, funs, cats
        self.seqs, self.groups, self.used, self.choices = [], [], set(), 0

    def argument(self, category):
        at = self.reader.at
        number = self.reader.number()
        group = number - self.out.total()
        if group < 0:
            members = (number,)
        elif group < len(self.groups):
            members = self.groups[group][0]
        else:
            raise Fault("BadNumber", at)
        if self.out.category(members[0]) != category:
            raise Fault("BadNumber", at)
        self.used.add(("group", group))
        return members

    def sequence(self, dims):
        if self.version == 1:
            return self.reader.sequence(dims)
        at = self.reader.at
        number = self.reader.number()
        if number >= len(self.seqs):
            raise Fault("BadNumber", at)
        self.used.add(("seq", number))
        for symbol in self.seqs[number][0]:
            if not isinstance(symbol, str) and (symbol[0] >= len(dims) or symbol[1] >= dims[symbol[0]]):
                raise Fault("BadNumber", at)
        return self.seqs[number][0]

    def production(self):
        at = self.reader.at
        fun = self.reader.below(len(self.funs))
        _, types, (result_category, _) = self.funs[fun]
        args = tuple(self.argument(category) for category, _ in types)
        result_at, result = self.reader.at, self.reader.number()
        if self.out.category(result) != result_category:
            raise Fault("BadNumber", result_at)
        dims = [self.out.dimension(category) for category, _ in types]
        seqs = tuple(self.sequence(dims) for _ in range(self.out.dimension(result_category)))
        many = 1
        for members in args:
            many *= len(members)
        self.choices += many
        if self.version == 2 and self.choices > MOST_CHOICES:
            raise Fault("BadNumber", at)
        return Production(fun, args, result, seqs, at)

    def listed(self):
        """A nonterminal of a listed category, with its dimension."""
        at = self.reader.at
        nonterminal = self.reader.number()
        category = self.out.category(nonterminal)
        if category is None or category < 2:
            raise Fault("BadNumber", at)
        return nonterminal, self.out.dimension(category)

    def filled(self):
        nonterminal, dim = self.listed()
        return nonterminal, tuple(self.sequence([1]) for _ in range(dim))

    def reference(self):
        nonterminal, dim = self.listed()
        return nonterminal, self.sequence([dim])

    def read(self):
        reader, whole = self.reader, lambda _, raw: raw
        self.out = Language(reader.text(is_name), reader.infos(self.version, self.cats))
        if self.version == 2:
            self.seqs = reader.ascending(reader.number(), reader.sequence, whole)
            self.groups = reader.ascending(reader.number(), lambda: reader.group(self.out), whole)
        self.out.prods = [p for p, _ in reader.ascending(reader.number(), self.production, whole)]
        self.out.defs = [d for d, _ in reader.ascending(reader.number(), self.filled, whole)]
        self.out.refs = [r for r, _ in reader.ascending(reader.number(), self.reference, whole)]
        self.out.unused = [at for what, items in (("seq", self.seqs), ("group", self.groups))
                           for number, (_, at) in enumerate(items) if (what, number) not in self.used]
        return self.out


# what is wrong where all fields are good

class Mistyped(Exception):
    """Arity or IndexType."""


def put(term, values):
    """A term with these terms for its variables."""
    if term[0] == "var":
        return values[term[1]]
    if term[0] in ("int", "str"):
        return term
    return term[0], [put(part, values) for part in term[1]]


def put_all(a_type, values):
    return a_type[0], [put(term, values) for term in a_type[1]]


def check_terms(grammar, terms, wanted, scope):
    """Terms for parameters of these types; each is compared once its parts are good, the number at last."""
    for number, term in enumerate(terms):
        found = type_of(grammar, term, scope)
        if number < len(wanted) and found != put_all(wanted[number], terms):
            raise Mistyped("IndexType")
    if len(terms) != len(wanted):
        raise Mistyped("Arity")


def type_of(grammar, term, scope):
    if term[0] == "var":
        return scope[term[1]]
    if term[0] in ("int", "str"):
        return (0 if term[0] == "int" else 1), []
    _, params, result = grammar.funs[term[0]]
    check_terms(grammar, term[1], params, scope)
    return put_all(result, term[1])


def check_types_of(grammar, types):
    for number, (category, terms) in enumerate(types):
        context = [] if category < 2 else grammar.cats[category - 2][1]
        check_terms(grammar, terms, context, types[:number])


def check_types(grammar, cats_at, funs_at):
    items = [(types, at) for (_, types), at in zip(grammar.cats, cats_at)]
    items += [(args + [result], at) for (_, args, result), at in zip(grammar.funs, funs_at)]
    for types, at in items:
        try:
            check_types_of(grammar, types)
        except Mistyped as why:
            raise Fault("Invalid", at, str(why)) from None


def reached_by(language):
    """The nonterminals with a run: literals, those that a hole fills, and results of productions over such ones."""
    reached = {0, 1} | {nonterminal for nonterminal, _ in language.defs}
    plain = [(choice, p.result) for p in language.prods for choice in product(*p.args)]
    while True:
        more = {result for choice, result in plain if reached.issuperset(choice)} - reached
        if not more:
            return reached
        reached |= more


def check_language(language, version):
    if version == 2:
        if language.unused:
            raise Fault("Invalid", language.unused[0], "Unused")
        whole = {(p.fun, p.args, p.result, p.seqs) for p in shared(language.prods)}
        for p in language.prods:
            if (p.fun, p.args, p.result, p.seqs) not in whole:
                raise Fault("Invalid", p.at, "Unshared")
    reached = reached_by(language)
    for p in language.prods:
        if not all(reached.issuperset(members) for members in p.args):
            raise Fault("Invalid", p.at, "Unproductive")


# the file of a grammar

def merged(rows, place):
    """Of the rows that differ in the set at a place alone one is made, with the union of the sets there."""
    sets = {}
    for fun, args, result, seqs in rows:
        key = fun, args[:place], args[place + 1:], result, seqs
        sets[key] = sets.get(key, frozenset()) | set(args[place])
    return [(fun, before + (tuple(sorted(union)),) + after, result, seqs)
            for (fun, before, after, result, seqs), union in sets.items()]


def shared(prods):
    """The productions that share arguments as far as they can."""
    rows = {(p.fun, choice, p.result, p.seqs) for p in prods for choice in product(*p.args)}
    rows = [(fun, tuple((n,) for n in choice), result, seqs) for fun, choice, result, seqs in rows]
    done = []
    for _, some in groupby(sorted(rows, key=lambda row: row[0]), key=lambda row: row[0]):
        some = list(some)
        for place in range(len(some[0][1])):
            some = merged(some, place)
        done += some
    return [Production(*row) for row in done]


def number(n):
    return n.to_bytes(4, "big")


def text(word):
    raw = word.encode("utf-8")
    return number(len(raw)) + raw


def items(parts):
    parts = list(parts)
    return number(len(parts)) + b"".join(parts)


def put_term(term):
    if term[0] == "var":
        return b"\1" + number(term[1])
    if term[0] == "int":
        return b"\2" + term[1].to_bytes(16, "big")
    if term[0] == "str":
        return b"\3" + text(term[1])
    return b"\0" + number(term[0]) + items(map(put_term, term[1]))


def put_type(a_type):
    return number(a_type[0]) + items(map(put_term, a_type[1]))


def put_sequence(seq):
    return items(b"\0" + text(s) if isinstance(s, str) else b"\1" + number(s[0]) + number(s[1]) for s in seq)


def put_abstract(grammar):
    out = text(grammar.name) + number(grammar.start) + number(len(grammar.cats)) + number(len(grammar.funs))
    for name, types in grammar.cats:
        out += text(name) + items(map(put_type, types))
    for name, args, result in grammar.funs:
        out += text(name) + items(map(put_type, args)) + put_type(result)
    return out


def put_infos(language):
    return text(language.name) + b"".join(number(cases) + number(dim) for cases, dim in language.infos)


def put_language(language):
    """A language in version 2."""
    prods = shared(language.prods)
    used = {seq for p in prods for seq in p.seqs} | {seq for _, seqs in language.defs for seq in seqs}
    used |= {seq for _, seq in language.refs}
    seqs = {raw: n for n, raw in enumerate(sorted(map(put_sequence, used)))}
    groups = sorted({members for p in prods for members in p.args if len(members) > 1}, key=lambda g: (len(g), g))
    place = lambda seq: number(seqs[put_sequence(seq)])
    def argument(members):
        return number(members[0] if len(members) == 1 else language.total() + groups.index(members))
    def production(p):
        return number(p.fun) + b"".join(map(argument, p.args)) + number(p.result) + b"".join(map(place, p.seqs))
    return (put_infos(language) + items(seqs) + items(items(map(number, g)) for g in groups)
            + items(sorted(map(production, prods)))
            + items(sorted(number(n) + b"".join(map(place, seqs)) for n, seqs in language.defs))
            + items(sorted(number(n) + place(seq) for n, seq in language.refs)))


def put_language_1(language):
    """A language in version 1, groups written out."""
    plain = {number(p.fun) + b"".join(map(number, choice)) + number(p.result) + b"".join(map(put_sequence, p.seqs))
             for p in language.prods for choice in product(*p.args)}
    return (put_infos(language) + items(sorted(plain))
            + items(sorted(number(n) + b"".join(map(put_sequence, seqs)) for n, seqs in language.defs))
            + items(sorted(number(n) + put_sequence(seq) for n, seq in language.refs)))


def write(grammar, version=2):
    """The file of a grammar."""
    put_one = put_language if version == 2 else put_language_1
    return b"GFPT" + number(version) + put_abstract(grammar) + items(map(put_one, grammar.languages))


def read(data):
    """The grammar whose file it is, or its first fault."""
    try:
        return Reader(data).whole()
    except Fault as fault:
        return fault
