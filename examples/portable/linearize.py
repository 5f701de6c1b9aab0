#!/usr/bin/env python3
"""Says a tree without holes by a portable grammar, version 2: linearize.py FILE LANGUAGE TREE.

Writes the strings of the tree in that language, each on a line, in byte order. docs/PORTABLE.md has the format."""
import re
import sys
from itertools import product


class File:
    """The bytes of a file, read field by field."""

    def __init__(self, data):
        self.data, self.at = data, 0

    def take(self, length):
        self.at += length
        return self.data[self.at - length:self.at]

    def number(self):
        return int.from_bytes(self.take(4), "big")

    def text(self):
        return self.take(self.number()).decode("utf-8")

    def many(self, read):
        return [read() for _ in range(self.number())]

    def term(self):
        """Terms of types do not matter for saying a tree: they are passed over."""
        tag = self.take(1)[0]
        if tag == 0:
            self.number(), self.many(self.term)
        elif tag == 1:
            self.number()
        elif tag == 2:
            self.take(16)
        else:
            self.text()

    def type(self):
        category = self.number()
        self.many(self.term)
        return category

    def symbol(self):
        return self.text() if self.take(1) == b"\0" else (self.number(), self.number())

    def language(self, categories, functions):
        name = self.text()
        infos = [(self.number(), self.number()) for _ in range(categories)]
        firsts = [0, 1, 2]
        for count, _ in infos:
            firsts.append(firsts[-1] + count)
        dims = [1, 1] + [dim for _, dim in infos]
        dim_of = lambda n: next(dims[c] for c in reversed(range(len(dims))) if firsts[c] <= n)
        seqs = self.many(lambda: self.many(self.symbol))
        groups = self.many(lambda: self.many(self.number))
        one = lambda n: [n] if n < firsts[-1] else groups[n - firsts[-1]]
        prods = []
        for _ in range(self.number()):
            fun = self.number()
            args = [one(self.number()) for _ in functions[fun][1]]
            result = self.number()
            prods.append((fun, args, result, [seqs[self.number()] for _ in range(dim_of(result))]))
        self.many(lambda: [self.number() for _ in range(dim_of(self.number()))])  # what holes say
        refs = self.many(lambda: (self.number(), seqs[self.number()]))
        return name, (prods, refs + [(0, [(0, 0)]), (1, [(0, 0)])])

    def grammar(self):
        assert self.take(8) == b"GFPT\0\0\0\2", "no portable grammar of version 2"
        self.text(), self.number()
        cats, funs = self.number(), self.number()
        for _ in range(cats):
            self.text(), self.many(self.type)
        functions = [(self.text(), self.many(self.type), self.type()) for _ in range(funs)]
        return functions, dict(self.many(lambda: self.language(cats, functions)))


def put(seq, args):
    """The words of a sequence, where each argument has these components."""
    return tuple(w for s in seq for w in ([s] if isinstance(s, str) else args[s[0]][s[1]]))


def values(functions, prods, tree):
    """The nonterminals of a tree with their components."""
    if isinstance(tree, str):
        return {(int(tree.startswith('"')), ((tree.strip('"'),),))}
    number = next(i for i, f in enumerate(functions) if f[0] == tree[0])
    kids = [values(functions, prods, t) for t in tree[1:]]
    return {(result, tuple(put(s, [v for _, v in pick]) for s in seqs))
            for fun, args, result, seqs in prods if fun == number
            for pick in product(*kids) if all(n in group for (n, _), group in zip(pick, args))}


def parsed(text):
    """The tree that a text spells: a function with its arguments is a list, a literal a text."""
    tokens = re.findall(r'"[^"]*"|[()]|[^\s()"]+', text)

    def tree(is_argument):
        token = tokens.pop(0)
        if token == "(":
            inner = tree(False)
            tokens.pop(0)
            return inner
        if token[0] == '"' or token[0].isdigit():
            return token
        args = []
        while not is_argument and tokens and tokens[0] != ")":
            args.append(tree(True))
        return [token] + args
    return tree(False)


def main(name, lang, text):
    with open(name, "rb") as file:
        functions, languages = File(file.read()).grammar()
    prods, refs = languages[lang]
    found = values(functions, prods, parsed(text))
    lines = {" ".join(put(seq, [v])) for n, v in found for m, seq in refs if m == n}
    print("\n".join(sorted(lines, key=str.encode)))


main(*sys.argv[1:])
