"""Changes of a module of Python, one at a time: each comparison, number, branch and text of it becomes another one."""

import ast

OPPOSITE: dict[type, type] = {
    **{ast.Eq: ast.NotEq, ast.NotEq: ast.Eq, ast.Lt: ast.LtE, ast.LtE: ast.Lt, ast.Gt: ast.GtE, ast.GtE: ast.Gt},
    **{ast.In: ast.NotIn, ast.NotIn: ast.In, ast.Is: ast.IsNot, ast.IsNot: ast.Is, ast.And: ast.Or, ast.Or: ast.And},
    **{ast.Add: ast.Sub, ast.Sub: ast.Add, ast.Mult: ast.FloorDiv, ast.FloorDiv: ast.Mult},
}
# So many characters of an expression name a change of it.
LONGEST = 70


class Change:
    """A change: what it is called, the function that it is in, the lines of that, and a call that makes it in the
    tree."""

    def __init__(self, node, what, owner, make):
        self.line, self.owner, self.make = node.lineno, owner, make
        self.what = " ".join(what.split())[:LONGEST]

    def lines(self):
        return range(self.owner.lineno - len(self.owner.decorator_list), self.owner.end_lineno + 1)


class Finder(ast.NodeVisitor):
    """The changes of a module, in the order of its text."""

    def __init__(self):
        self.owners, self.found = [], []

    def add(self, node, what, make):
        functions = [it for it in self.owners if not isinstance(it, ast.ClassDef)]
        self.found.append(Change(node, what, functions[0] if functions else None, make))
        self.found[-1].where = ".".join(it.name for it in self.owners[: len(self.owners) - len(functions) + 1])

    def visit_FunctionDef(self, node):
        """What a definition has is looked at but for its docstring and its annotations."""
        self.owners.append(node)
        for it in [*node.decorator_list, *getattr(node, "bases", ()), *self.defaults_of(node), *node.body]:
            if not (isinstance(it, ast.Expr) and isinstance(it.value, ast.Constant)):
                self.visit(it)
        self.owners.pop()

    visit_ClassDef = visit_FunctionDef

    def defaults_of(self, node):
        return [*node.args.defaults, *filter(None, node.args.kw_defaults)] if hasattr(node, "args") else []

    def visit_Module(self, node):
        for it in node.body:
            if not (isinstance(it, ast.Expr) and isinstance(it.value, ast.Constant)):
                self.visit(it)

    def visit_AnnAssign(self, node):
        if node.value:
            self.visit(node.value)

    def visit_Compare(self, node):
        for at, it in enumerate(node.ops):
            self.add(node, ast.unparse(node), lambda at=at, it=it: node.ops.__setitem__(at, OPPOSITE[type(it)]()))
        self.generic_visit(node)

    def visit_BoolOp(self, node):
        if type(node.op) in OPPOSITE:
            self.add(node, ast.unparse(node), lambda: setattr(node, "op", OPPOSITE[type(node.op)]()))
        self.generic_visit(node)

    visit_BinOp = visit_BoolOp

    def visit_If(self, node):
        kind = type(node).__name__.lower()
        self.add(node, f"{kind} {ast.unparse(node.test)}", lambda: setattr(node, "test", negated(node.test)))
        self.generic_visit(node)

    visit_IfExp = visit_If

    def visit_comprehension(self, node):
        for at, it in enumerate(node.ifs):
            self.add(it, f"for if {ast.unparse(it)}", lambda at=at: node.ifs.__setitem__(at, negated(node.ifs[at])))
        self.generic_visit(node)

    def visit_Constant(self, node):
        value = node.value
        if isinstance(value, (bool, int, str, bytes)):
            self.add(node, repr(value), lambda: setattr(node, "value", other(value)))


def negated(test):
    return ast.copy_location(ast.UnaryOp(ast.Not(), test), test)


def other(value):
    if isinstance(value, bool):
        return not value
    return value + (1 if isinstance(value, int) else b"~" if isinstance(value, bytes) else "~")


def changes_of(tree):
    """The changes of a tree, each of another name: the expression, its function, and a number where many are alike."""
    finder, known = Finder(), {}
    finder.visit(tree)
    for it in finder.found:
        name = f"{it.where or '-'}: {it.what}"
        known[name] = known.get(name, 0) + 1
        it.name = name if known[name] == 1 else f"{name} ({known[name]})"
        yield it


def changed(text, number):
    """The tree of a module's text with the change of this number."""
    tree = ast.parse(text)
    [*changes_of(tree)][number].make()
    return ast.fix_missing_locations(tree)
