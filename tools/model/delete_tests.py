#!/usr/bin/env python3
"""delete_tests.py: does anything notice when a rule of the model loses a test?

Each test of the model (a comparison, a condition, a part of one, a bound, a row of a table, the order of two refusals) is
in turn dropped, turned round or moved by one, and the vectors and samples are run again. An edit that changes no answer
is unnoticed: nothing pins what it edits. The papers' worked examples (`tables.py`) are held beside them. Prints the edits that are unnoticed, and the counts.

    tools/model/delete_tests.py            all edits
    tools/model/delete_tests.py TEXT       those of functions or tables whose name contains TEXT
"""

import ast
import copy
import re
import signal
import sys
import types
from collections import Counter, defaultdict
from pathlib import Path

HERE = Path(__file__).resolve().parent
sys.path.insert(0, str(HERE.parent))

import make_vectors  # noqa: E402
import tables  # noqa: E402

# The modules of the rules, each after those that it imports; the last is not edited, it runs the calls.
RULES = ("bounds", "dayfile", "model", "memory", "baskets", "question", "mending", "statements", "saved")
MODULES = (*RULES, "vectors")

# What states no rule: the model's checks of itself, what the generator and the tools call, and the filling of room.
NO_RULE = ("Condition3", "run", "run_from", "free_balance", "write", "insert_flags", "FILLING", "FILLED_CONTRACT", "FILLED_COUNT", "FILLED_MAKER")

# Edits that change no answer on any input, by the function and the words of the edit, with the reason. They are told and not
# counted.
NO_DIFFERENCE = (
    ("is_writable", "state.trades == []", "with the next order number 1 a well-formed state has no trades"),
    ("is_writable", "queue == []", "with the next order number 1 a well-formed state has no orders"),
    ("sections", "exchanged: raise dayfile.Broken", "both faults are code 20"),
    ("balances_faults", "'balance of a maker'", "the words of a fault alone: both are code 20"),
)

# Longer samples take too long to be run for each edit.
LARGEST_SAMPLE = 3_000

# A run that an edit keeps from ending is stopped after so many seconds.
MOST_SECONDS = 5


class Edit:
    """What is done to the node at a place of a module's tree."""

    def __init__(self, module, function, line, place, what, change):
        self.module, self.function, self.line, self.place = module, function, line, place
        self.what, self.change = what, change

    def __str__(self):
        return f"{self.module}.py:{self.line} {self.function}: {self.what}"


# =====================================================================================================================
# The edits of a tree
# =====================================================================================================================


# The nodes of a tree, each with the function or table that it stands in; in an order that does not depend on edits.
def nodes_of(tree):
    place = 0
    for statement in tree.body:
        if isinstance(statement, (ast.FunctionDef, ast.ClassDef)):
            name = statement.name
        elif isinstance(statement, ast.Assign):
            name = ast.unparse(statement.targets[0])
        else:
            name = None
        for node in ast.walk(statement):
            place += 1
            if name is not None and name not in NO_RULE:
                yield place, name, node


def edits_of(module, tree):
    for place, name, node in nodes_of(tree):
        for what, change in edits_at(node):
            line = getattr(node, "lineno", 0)
            yield Edit(module, name, line, place, what, change)
    yield from table_edits(module, tree)


OTHER_BOUND = {ast.Lt: ast.LtE, ast.LtE: ast.Lt, ast.Gt: ast.GtE, ast.GtE: ast.Gt}
OPPOSITE = {
    ast.Eq: ast.NotEq,
    ast.NotEq: ast.Eq,
    ast.In: ast.NotIn,
    ast.NotIn: ast.In,
    ast.Is: ast.IsNot,
    ast.IsNot: ast.Is,
    ast.Lt: ast.GtE,
    ast.GtE: ast.Lt,
    ast.Gt: ast.LtE,
    ast.LtE: ast.Gt,
}
OTHER_CHOICE = {"min": "max", "max": "min", "all": "any", "any": "all"}


# What may be done to one node: (words, function that changes the node in place).
def edits_at(node):
    if isinstance(node, ast.If):
        yield f"never: if {ast.unparse(node.test)}", set_field("test", ast.Constant(False))
        yield f"always: if {ast.unparse(node.test)}", set_field("test", ast.Constant(True))
    if isinstance(node, ast.IfExp):
        yield f"always: {ast.unparse(node)}", set_field("test", ast.Constant(True))
        yield f"never: {ast.unparse(node)}", set_field("test", ast.Constant(False))
    if isinstance(node, ast.comprehension):
        for k, test in enumerate(node.ifs):
            yield f"dropped: if {ast.unparse(test)}", drop("ifs", k)
    if isinstance(node, ast.BoolOp):
        for k, part in enumerate(node.values):
            yield f"dropped: {ast.unparse(part)}", drop_part(k)
    if isinstance(node, ast.Compare):
        yield from compare_edits(node)
    if isinstance(node, ast.Call) and isinstance(node.func, ast.Name) and node.func.id in OTHER_CHOICE:
        other = OTHER_CHOICE[node.func.id]
        yield f"{other} for {ast.unparse(node)}", set_field("func", ast.Name(other, ast.Load()))
    for field in ("body", "orelse"):
        yield from order_edits(getattr(node, field, None), field)


def compare_edits(node):
    words = ast.unparse(node)
    if len(node.ops) > 1:
        for k in range(len(node.ops)):
            yield f"part {k + 1} dropped: {words}", drop_comparison(k)
    for k, op in enumerate(node.ops):
        if len(node.ops) == 1:
            yield f"turned round: {words}", set_op(k, OPPOSITE[type(op)])
        if type(op) in OTHER_BOUND:
            yield f"bound {k + 1} moved: {words}", set_op(k, OTHER_BOUND[type(op)])
    for k, side in enumerate([node.left, *node.comparators]):
        if isinstance(side, ast.Constant) and type(side.value) is int:
            for by in (1, -1):
                yield f"{side.value} now {side.value + by}: {words}", set_side(k, ast.Constant(side.value + by))


# What a refusal gives: a code, an answer with a code, or a fault of a file.
CODE = re.compile(r"return (\d+|code|\w+\((\d+|code)\))|raise .*")


# Two refusals one after the other, exchanged. A refusal is an `if` that returns or raises; where it tests a code that was
# worked out just before, the two statements belong together.
def order_edits(body, field):
    if not isinstance(body, list):
        return
    refusals = []
    for at, statement in enumerate(body):
        is_refusal = (
            isinstance(statement, ast.If)
            and not statement.orelse
            and len(statement.body) == 1
            and isinstance(statement.body[0], (ast.Return, ast.Raise))
        )
        if is_refusal and CODE.fullmatch(ast.unparse(statement.body[0])):
            passes_on = ast.unparse(statement.body[0]) in ("return code", "return Reading(code)")
            refusals.append((at - 1 if passes_on else at, at + 1, ast.unparse(statement.body[0])))
    for (start, end, first), (next_start, next_end, second) in zip(refusals, refusals[1:]):
        if first != second or "code" in first:
            words = f"exchanged: {first} and {second} of line {body[next_start].lineno}"
            yield words, move(field, start, end, next_end)


def set_field(name, value):
    return lambda node: setattr(node, name, copy.deepcopy(value))


def drop(name, k):
    return lambda node: getattr(node, name).pop(k)


# A part that changes nothing stands in for the one that is dropped.
def drop_part(k):
    def change(node):
        node.values[k] = ast.Constant(isinstance(node.op, ast.And))

    return change


def set_op(k, op):
    def change(node):
        node.ops[k] = op()

    return change


def set_side(k, value):
    def change(node):
        if k == 0:
            node.left = value
        else:
            node.comparators[k - 1] = value

    return change


def drop_comparison(k):
    def change(node):
        node.ops.pop(k)
        if k == 0:
            node.left = node.comparators.pop(0)
        else:
            node.comparators.pop(k)

    return change


def move(field, start, end, to):
    def change(node):
        body = getattr(node, field)
        moved = body[start:end]
        setattr(node, field, body[:start] + body[end:to] + moved + body[to:])

    return change


# The bounds by one more and one less; each row of a table taken out; each that it leaves out put in.
def table_edits(module, tree):
    for place, name, node in nodes_of(tree):
        if isinstance(node, ast.Assign) and isinstance(node.value, (ast.Constant, ast.BinOp)) and name.isupper():
            for by in (1, -1):
                value = ast.BinOp(node.value, ast.Add(), ast.Constant(by))
                yield Edit(module, name, node.lineno, place, f"{ast.unparse(node.value)} and {by}", set_field("value", value))
        if name == "FIELDS_USED" and isinstance(node, ast.Dict):
            fields = ("account", "contract", "flags", "lots", "price", "order_number", "amount")
            for k, kind in enumerate(node.keys):
                used = [constant.value for constant in node.values[k].elts]
                for field in fields:
                    now = [other for other in used if other != field] if field in used else [*used, field]
                    words = f"{kind.value} {'does not use' if field in used else 'uses'} {field}"
                    yield Edit(module, name, node.lineno, place, words, set_value(k, now))
        if name == "LISTED_STATE_CHANGES" and isinstance(node, ast.Set):
            listed = [ast.literal_eval(pair) for pair in node.elts]
            for pair in [(before, after) for before in range(5) for after in range(5)]:
                now = [other for other in listed if other != pair] if pair in listed else [*listed, pair]
                words = f"{pair} {'not listed' if pair in listed else 'listed'}"
                yield Edit(module, name, node.lineno, place, words, set_elements(now))


def set_value(k, elements):
    def change(node):
        node.values[k] = ast.Tuple([ast.Constant(element) for element in elements], ast.Load())

    return change


def set_elements(pairs):
    def change(node):
        node.elts = [ast.Tuple([ast.Constant(number) for number in pair], ast.Load()) for pair in pairs]

    return change


def edited(tree, edit):
    changed = copy.deepcopy(tree)
    nodes = {place: node for place, _, node in nodes_of(changed)}
    edit.change(nodes[edit.place])
    return ast.fix_missing_locations(changed)


# =====================================================================================================================
# Running the model
# =====================================================================================================================


# All modules made anew, from their code; those that import each other find the new ones.
def load(codes):
    kept = {name: sys.modules.get(name) for name in MODULES}
    made = {}
    try:
        for name in MODULES:
            made[name] = types.ModuleType(name)
            sys.modules[name] = made[name]
            exec(codes[name], made[name].__dict__)
    finally:
        for name, module in kept.items():
            sys.modules.pop(name, None)
            if module is not None:
                sys.modules[name] = module
    return made


# All that a call answers and leaves, as the vector has it; or that it fails.
def written(modules, case):
    vectors = modules["vectors"]
    try:
        found = within_time(lambda: vectors.outcome(case))
        return vectors.CALLS[case.call].answer(found.answer) + vectors.edits(vectors.changes(case.state, found.state))
    except Exception as error:
        return type(error).__name__


def worked_out(modules, name, arguments):
    try:
        return within_time(lambda: getattr(modules["model"], name)(*arguments))
    except Exception as error:
        return type(error).__name__


def output(modules, file):
    try:
        return within_time(lambda: modules["model"].run(file))
    except Exception as error:
        return type(error).__name__


def within_time(run):
    def stop(*_):
        raise TimeoutError

    signal.signal(signal.SIGALRM, stop)
    signal.setitimer(signal.ITIMER_REAL, MOST_SECONDS)
    try:
        return run()
    finally:
        signal.setitimer(signal.ITIMER_REAL, 0)


# Every test tells on the way what it was: which cases reach it, and with what.
class Traced(ast.NodeTransformer):
    def __init__(self, module, places):
        self.module, self.places = module, places

    def visit(self, node):
        place = self.places.get(id(node))
        node = super().generic_visit(node)
        if place is not None and isinstance(node, (ast.Compare, ast.BoolOp, ast.IfExp, ast.Call)):
            key = ast.Constant((self.module, place))
            sides = [node.left, *node.comparators] if isinstance(node, ast.Compare) else []
            told = ast.Tuple([copy.deepcopy(side) for side in sides], ast.Load())
            return ast.Call(ast.Name("told", ast.Load()), [key, node, told], [])
        if place is not None and isinstance(node, (ast.If, ast.comprehension)):
            tests = [node.test] if isinstance(node, ast.If) else node.ifs
            told = [
                ast.Call(
                    ast.Name("told", ast.Load()),
                    [ast.Constant((self.module, place)), test, ast.Tuple([], ast.Load())],
                    [],
                )
                for test in tests
            ]
            if isinstance(node, ast.If):
                node.test = told[0]
            else:
                node.ifs = told
        return node


# For each place of each module: the cases that come there, those first that come with what few others come with.
def cases_by_place(trees, cases):
    met = defaultdict(lambda: defaultdict(set))
    at_work = []

    def told(place, value, sides):
        numbers = [side for side in sides if isinstance(side, (int, str)) or side is None]
        near = tuple(
            (first == second, isinstance(first, int) and isinstance(second, int) and abs(first - second) == 1)
            for first, second in zip(numbers, numbers[1:])
        )
        met[place][at_work[-1]].add((value if isinstance(value, bool) else None, near))
        return value

    codes = {}
    for name, tree in trees.items():
        traced = copy.deepcopy(tree)
        if name in RULES:
            places = {id(node): place for place, _, node in nodes_of(traced)}
            traced = ast.fix_missing_locations(Traced(name, places).visit(traced))
        codes[name] = compile(traced, f"{name}.py", "exec")
    import builtins

    builtins.told = told
    at_work.append(None)
    modules = load(codes)
    for k, case in enumerate(cases):
        at_work[-1] = k
        written(modules, case)
    ordered = {}
    for place, by_case in met.items():
        times = Counter(key for keys in by_case.values() for key in keys)
        rarest = {k: min(times[key] for key in keys) for k, keys in by_case.items() if k is not None}
        ordered[place] = sorted(rarest, key=rarest.get)
    return ordered


# =====================================================================================================================
# The count
# =====================================================================================================================


class Notice:
    """What would notice an edit: the vectors, then the samples."""

    def __init__(self, trees):
        self.trees = trees
        self.codes = {name: compile(tree, f"{name}.py", "exec") for name, tree in trees.items()}
        self.cases = [case for name in make_vectors.NAMES for case in make_vectors.cases_of(name)]
        self.reached = cases_by_place(trees, self.cases)
        modules = load(self.codes)
        self.wanted = [written(modules, case) for case in self.cases]
        samples = HERE.parent.parent / "samples"
        files = [path.read_bytes() for path in sorted([*samples.glob("*.day"), *samples.glob("broken/*.day")])]
        self.samples = [file for file in sorted(files, key=len) if len(file) <= LARGEST_SAMPLE]
        self.outputs = {}

    # The vector or sample that notices the edit, or None.
    def of(self, edit):
        tree = edited(self.trees[edit.module], edit)
        codes = {**self.codes, edit.module: compile(tree, f"{edit.module}.py", "exec")}
        try:
            modules = load(codes)
        except Exception:
            return "the model cannot be made"
        for k in self.candidates(edit):
            if written(modules, self.cases[k]) != self.wanted[k]:
                return f"{self.cases[k].call}: {self.cases[k].name}"
        for name, arguments, result in tables.WORKED:
            if worked_out(modules, name, arguments) != result:
                return f"table: {name}"
        for k, file in enumerate(self.samples):
            if k not in self.outputs:
                self.outputs[k] = output(load(self.codes), file)
            if output(modules, file) != self.outputs[k]:
                return f"sample {k}"
        return None

    def candidates(self, edit):
        is_table = edit.function.isupper()
        return range(len(self.cases)) if is_table else self.reached.get((edit.module, edit.place), range(len(self.cases)))


def main():
    wanted = sys.argv[1] if len(sys.argv) > 1 else ""
    trees = {name: ast.parse((HERE / f"{name}.py").read_text()) for name in MODULES}
    edits = [edit for name in RULES for edit in edits_of(name, trees[name]) if wanted in edit.function]
    notice = Notice(trees)
    unnoticed = 0
    for edit in edits:
        if notice.of(edit) is None:
            reasons = [why for function, words, why in NO_DIFFERENCE if edit.function == function and words in str(edit)]
            unnoticed += not reasons
            print(f"no difference: {edit}: {reasons[0]}" if reasons else f"unnoticed: {edit}", flush=True)
    tests = len({(edit.module, edit.line, edit.place) for edit in edits})
    print(f"{len(notice.cases)} vectors, {len(notice.samples)} samples: {tests} tests, {len(edits)} edits, {unnoticed} unnoticed")
    sys.exit(1 if unnoticed else 0)


if __name__ == "__main__":
    main()
