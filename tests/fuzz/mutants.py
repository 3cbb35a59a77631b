#!/usr/bin/env python3
"""Shows what the cases of the fuzzer are able to see: plants one mistake at a time in the second programs (text.py, table_set.py and
faults.py of tests/acpi_images), such as another number, `<` for `<=`, or `and` for `or`, and judges the same cases with it. A mistake at
which no answer differs is printed: it changes no answer at all, or the cases have a hole. It needs no program, and some minutes.

usage: mutants.py [--seed N] [--cases N]; the last line is 'mutants: N seen, M not seen'."""

import argparse
import ast
import copy
import signal
import sys
import types
from importlib import import_module
from pathlib import Path

sys.path.insert(0, str(Path(__file__).resolve().parents[1]))

from acpi_images.faults import Judgement
from acpi_images.generated.cases import asked, changed_case, made_case
from acpi_images.table_set import find_rsdp
from acpi_images.text import Refused, read

SEED, CASES = 1, 800
SECONDS = 60
OTHER_COMPARISON = {
    ast.Lt: ast.LtE, ast.LtE: ast.Lt, ast.Gt: ast.GtE, ast.GtE: ast.Gt, ast.Eq: ast.NotEq, ast.NotEq: ast.Eq, ast.In: ast.NotIn,
    ast.NotIn: ast.In, ast.Is: ast.IsNot, ast.IsNot: ast.Is,
}
OTHER_OPERATION = {
    ast.Add: ast.Sub, ast.Sub: ast.Add, ast.Mult: ast.Add, ast.LShift: ast.RShift, ast.RShift: ast.LShift, ast.BitAnd: ast.BitOr,
    ast.BitOr: ast.BitAnd, ast.Mod: ast.Add, ast.FloorDiv: ast.Mult,
}


# ---- mistakes


def wrong_nodes(node):
    """What a node of the code may be replaced with."""
    if isinstance(node, ast.Constant) and type(node.value) is int:
        return [ast.Constant(node.value + 1), ast.Constant(node.value - 1)]
    if isinstance(node, ast.Constant) and type(node.value) is bytes and node.value:
        return [ast.Constant(node.value[:-1] + bytes([node.value[-1] ^ 1])), ast.Constant(node.value[:-1])]
    if isinstance(node, ast.Compare) and len(node.ops) == 1:
        return [ast.Compare(node.left, [OTHER_COMPARISON[type(node.ops[0])]()], node.comparators)]
    if isinstance(node, ast.Compare):
        others = [[*node.ops[:place], OTHER_COMPARISON[type(op)](), *node.ops[place + 1 :]] for place, op in enumerate(node.ops)]
        return [ast.Compare(node.left, ops, node.comparators) for ops in others]
    if isinstance(node, ast.BoolOp):
        return [ast.BoolOp(ast.Or() if isinstance(node.op, ast.And) else ast.And(), node.values), *node.values]
    if isinstance(node, ast.BinOp) and type(node.op) in OTHER_OPERATION:
        return [ast.BinOp(node.left, OTHER_OPERATION[type(node.op)](), node.right)]
    if isinstance(node, ast.UnaryOp) and isinstance(node.op, ast.Not):
        return [node.operand]
    if isinstance(node, ast.IfExp):
        return [node.body, node.orelse]
    if isinstance(node, ast.Tuple) and len(node.elts) > 1 and isinstance(node.ctx, ast.Load):
        return [ast.Tuple(node.elts[1:], node.ctx), ast.Tuple([node.elts[1], node.elts[0], *node.elts[2:]], node.ctx)]
    if isinstance(node, ast.Call) and isinstance(node.func, ast.Name) and node.func.id in ("min", "max", "any", "all", "sorted", "set"):
        other = {"min": "max", "max": "min", "any": "all", "all": "any", "sorted": "list", "set": "list"}[node.func.id]
        return [ast.Call(ast.Name(other, ast.Load()), node.args, [] if node.func.id == "sorted" else node.keywords)]
    return []


def replaced(tree, place, wrong):
    """A copy of the code with another node instead of the one that comes so far on a walk."""
    tree = copy.deepcopy(tree)
    target = list(ast.walk(tree))[place]

    class Replace(ast.NodeTransformer):
        def visit(self, node):
            return wrong if node is target else self.generic_visit(node)

    return ast.fix_missing_locations(Replace().visit(tree))


def first_lines(tree):
    """Of each node in a function the function's first line, by the node's identity."""
    functions = [node for node in ast.walk(tree) if isinstance(node, ast.FunctionDef)]
    return {id(node): function.lineno for function in functions for node in ast.walk(function)}


def mutants(path):
    """(where, the first line of the function, the code with a mistake there)."""
    source = path.read_text()
    tree = ast.parse(source)
    lines = first_lines(tree)
    for place, node in enumerate(ast.walk(tree)):
        for wrong in wrong_nodes(node):
            where = f"{path.name} {node.lineno}: {ast.get_source_segment(source, node)} -> {ast.unparse(wrong)}"
            yield where, lines.get(id(node)), compile(replaced(tree, place, copy.deepcopy(wrong)), path.name, "exec")


def made_anew(names, wrong_name=None, wrong_code=None):
    """Modules of the package by their names, of which each imports only earlier ones; one of them has another code."""
    made = {}
    for name in names:
        whole_name = f"acpi_images.{name}"
        file = import_module(whole_name).__file__
        made[name] = sys.modules[whole_name] = types.ModuleType(whole_name)
        made[name].__dict__.update(__file__=file, __package__=whole_name.rpartition(".")[0])
        exec(wrong_code if name == wrong_name else compile(Path(file).read_text(), file, "exec"), made[name].__dict__)
    return made


# ---- the cases, and what the second programs say of them


class Texts:
    """Image texts, judged by text.py: what is present, what beside it is not, and what is left where a byte is dropped."""

    modules = planted = ("text",)

    def __init__(self, cases):
        self.texts = [case.text for case, _ in cases]
        modules = made_anew(self.modules)
        self.told = [self.judged(modules, text) for text in self.texts]

    def in_which_runs(self, *_):
        return zip(self.texts, self.told)

    def judged(self, modules, text):
        try:
            image = modules["text"].read(text)
        except modules["text"].Refused as refusal:
            return str(refusal)
        pieces = image.pieces()
        present = [image.present(at + shift, len(data)) for at, data in pieces.items() for shift in (-1, 0, 1)]
        present = [it and (it.data, it.number(0, len(it)), it.sums_to_0()) for it in present]
        for at in pieces:
            image.drop(at + 1, 2)
        return pieces, modules["text"].text_of(pieces), present, image.pieces()


class Sets:
    """Sets of tables, judged by faults.py. Advice and the lines of `show` are compared as far as they depend on what is planted."""

    rules = ("facts", "rule", "tables", "fadt", "madt", "gic", "domains", "pptt")
    modules = ("table_set", "faults", *(f"rules.{name}" for name in rules), "advice", "shown")
    planted = ("table_set", "faults")

    def __init__(self, cases):
        self.sets = []
        for case, dice in cases:
            try:
                image = read(case.text)
            except Refused:
                continue
            rsdp = find_rsdp(image) if case.rsdp is None else case.rsdp
            faults = [] if rsdp is None else asked(dice, Judgement(image, rsdp, case.settings))
            self.sets.append((image, rsdp, case, faults))
        modules, self.told, self.ran = made_anew(self.modules), [], []
        for it in self.sets:
            self.ran.append(set())
            sys.setprofile(self.note)
            self.told.append(self.judged(modules, it))
            sys.setprofile(None)

    def note(self, frame, *_):
        """Notes which functions run for a set: a mistake in any other one cannot be seen with it."""
        self.ran[-1].add((frame.f_code.co_filename, frame.f_code.co_firstlineno))

    def in_which_runs(self, file, line):
        """The sets for which the function with this first line runs, and what is said of each."""
        return ((it, told) for it, told, ran in zip(self.sets, self.told, self.ran) if line is None or (file, line) in ran)

    def judged(self, modules, it):
        image, rsdp, case, faults = it
        found = modules["table_set"].find_rsdp(image)
        if rsdp is None:
            return found
        settings = modules["table_set"].Policy(**vars(case.settings))
        judgement = modules["faults"].Judgement(image, rsdp, settings)
        confirmed = [(str(fault), judgement.has(fault)) for fault in (*judgement.faults, *faults)]
        lines, text = modules["advice"].lint_lines(image, rsdp, settings), modules["shown"].shown(image, rsdp)
        return found, str(judgement.verdict(case.last)), lines, text, confirmed


def too_long(*_):
    raise TimeoutError


def is_seen(judged, name, line, code):
    """Whether an answer differs. A mistake at which a second program stops, or does not end, is seen too."""
    file = sys.modules[f"acpi_images.{name}"].__file__
    signal.alarm(SECONDS)
    try:
        modules = made_anew(judged.modules, name, code)
        return any(judged.judged(modules, it) != told for it, told in judged.in_which_runs(file, line))
    except Exception:
        return True
    finally:
        signal.alarm(0)


def main():
    parser = argparse.ArgumentParser()
    parser.add_argument("--seed", type=int, default=SEED)
    parser.add_argument("--cases", type=int, default=CASES)
    said = parser.parse_args()
    signal.signal(signal.SIGALRM, too_long)
    cases = [make(said.seed, place) for place in range(said.cases) for make in (made_case, changed_case)]
    seen = unseen = 0
    for judged, name in [(judged, name) for judged in (Texts(cases), Sets(cases)) for name in judged.planted]:
        for where, line, code in mutants(Path(sys.modules[f"acpi_images.{name}"].__file__)):
            if is_seen(judged, name, line, code):
                seen += 1
            else:
                unseen += 1
                print(where, flush=True)
    print(f"mutants: {seen} seen, {unseen} not seen")


if __name__ == "__main__":
    main()
