"""What cases/drive and cases/workers share: the cases of cases/run, small networks with free merges and what they mean by merges.py, and how
programs are run and counted.
"""
import dataclasses
import importlib.machinery
import importlib.util
import pathlib
import re
import subprocess
import sys

from merges import choice, free, in_turn, record, serial, split, star, taking

HERE = pathlib.Path(__file__).resolve().parent
SECONDS = 60


def cases_run():
    """The module of cases/run, whose name has no ending."""
    loader = importlib.machinery.SourceFileLoader("cases_run", str(HERE / "run"))
    module = importlib.util.module_from_spec(importlib.util.spec_from_loader("cases_run", loader))
    sys.modules["cases_run"] = module
    loader.exec_module(module)
    return module


def without_guards(text):
    """The text without `if` and the expression in parentheses behind it."""
    while found := re.search(r"\bif\s*\(", text):
        end, open_ones = found.end(), 1
        while open_ones:
            open_ones += {"(": 1, ")": -1}.get(text[end], 0)
            end += 1
        text = text[: found.start()] + text[end:]
    return text


def has_free_merge(source):
    """Whether a choice, a star or a split of the source is free. Only texts of networks are looked at, without what stands in brackets."""
    source = re.sub(r"//[^\n]*|/\*.*?\*/", " ", source, flags=re.S)
    networks = re.findall(r"\bconnect\b(.*?);", re.sub(r"\[[^\]]*\]", " ", source), flags=re.S)
    return any(re.search(r"[|*!]", re.sub(r"\|\||\*\*|!!", " ", without_guards(text))) for text in networks)


def run_in(folder, program, words):
    ran = subprocess.run([program, *words], cwd=folder, stdin=subprocess.DEVNULL, capture_output=True, timeout=SECONDS)
    return ran.stdout, ran.returncode, ran.stderr


class Count:
    """What passed and what failed."""

    def __init__(self):
        self.passed = self.failed = 0

    def add(self, name, order, found):
        if found:
            self.failed += 1
            print(f"FAILED {name} {order}: {found[0]}", flush=True)
        else:
            self.passed += 1


def short(text):
    return repr(text if len(text) <= 200 else text[:200] + b"..")


def cases():
    """The cases of cases/run, with words that are text."""
    run = cases_run()
    for folder in sorted(path for path in HERE.iterdir() if path.is_dir()):
        for case in run.cases_in(folder):
            words = [word.decode() if isinstance(word, bytes) else word for word in case.words]
            if words:
                yield dataclasses.replace(case, words=words)


@dataclasses.dataclass
class Network:
    """A small network: its source, what it means by cases/merges.py, and what flows in."""

    name: str
    source: str
    net: object
    records: list


def renames(old, new):
    return taking(old)(lambda value: [{new: value}])


def counts_down():
    return taking("<n>")(lambda n: [{"<n>": n - 1}])


def is_done(r):
    return dict(r)["<n>"] == 0


def both(old, first, second):
    return taking(old)(lambda value: [{first: value}, {second: value}])


A_TO_X = renames("a", "x")
B_TO_Y = renames("b", "y")
C_TO_Z = renames("c", "z")
DOWN = "[{<n>} -> {<n>=<n>-1}]"
DONE = "{<n>} if (<n> == 0)"

NETWORKS = [
    Network(
        "a free choice",
        "net main ({a} | {b} -> {x} | {y}) connect [{a} -> {x=a}] | [{b} -> {y=b}];",
        choice(free, ({"a"}, A_TO_X), ({"b"}, B_TO_Y)),
        [record(a=1), record(b=2), record(a=3), record(b=4)],
    ),
    Network(
        "a free choice of boxes that answer twice",
        "box f ((a) -> (x)) { out 1(a); out 1(a + 10) } box g ((b) -> (y)) { out 1(b); out 1(b + 10) } "
        "net main ({a} | {b} -> {x} | {y}) connect f | g;",
        choice(
            free,
            ({"a"}, taking("a")(lambda a: [{"x": a}, {"x": a + 10}])),
            ({"b"}, taking("b")(lambda b: [{"y": b}, {"y": b + 10}])),
        ),
        [record(a=1), record(b=2), record(a=3)],
    ),
    Network(
        "a free split over two values",
        "box f ((a) -> (x)) { out 1(a + 1) } net main ({a,<k>} -> {x,<k>}) connect f ! <k>;",
        split(free, "<k>", taking("a")(lambda a: [{"x": a + 1}])),
        [record(a=1, _k=0), record(a=2, _k=1), record(a=3, _k=0), record(a=4, _k=1)],
    ),
    Network(
        "a free star with two levels",
        f"net main ({{a,<n>}} -> {{a,<n>}}) connect {DOWN} * {DONE};",
        star(free, is_done, counts_down()),
        [record(a=1, _n=2), record(a=2, _n=1), record(a=3, _n=0)],
    ),
    Network(
        "a free choice inside a deterministic one",
        "net inner connect [{a} -> {p=a};{q=a}] .. ([{p} -> {x=p}] | [{q} -> {y=q}]); "
        "net main ({a} | {c} -> {x} | {y} | {z}) connect inner || [{c} -> {z=c}];",
        choice(
            in_turn,
            ({"a"}, serial(both("a", "p", "q"), choice(free, ({"p"}, renames("p", "x")), ({"q"}, renames("q", "y"))))),
            ({"c"}, C_TO_Z),
        ),
        [record(a=1), record(c=2), record(a=3)],
    ),
    Network(
        "a deterministic choice inside a free one",
        "net main ({a} | {b} | {c} -> {x} | {y} | {z}) connect ([{a} -> {x=a}] || [{b} -> {y=b}]) | [{c} -> {z=c}];",
        choice(free, ({"a", "b"}, choice(in_turn, ({"a"}, A_TO_X), ({"b"}, B_TO_Y))), ({"c"}, C_TO_Z)),
        [record(a=1), record(b=2), record(c=3), record(c=4)],
    ),
    Network(
        "two free choices in series",
        "net main ({a} | {b} -> {x} | {y}) connect ([{a} -> {a=a}] | [{b} -> {b=b}]) .. ([{a} -> {x=a}] | [{b} -> {y=b}]);",
        serial(
            choice(free, ({"a"}, renames("a", "a")), ({"b"}, renames("b", "b"))),
            choice(free, ({"a"}, A_TO_X), ({"b"}, B_TO_Y)),
        ),
        [record(a=1), record(b=2), record(a=3)],
    ),
    Network(
        "a free star inside a deterministic split",
        f"net main ({{a,<n>,<k>}} -> {{a,<n>,<k>}} | {{b,<n>,<k>}}) connect ([{{a}} -> {{a=a}};{{b=a,<n>=0}}] .. ({DOWN} * {DONE})) !! <k>;",
        split(
            in_turn,
            "<k>",
            serial(
                taking("a")(lambda a: [{"a": a}, {"b": a, "<n>": 0}]),
                star(free, is_done, counts_down()),
            ),
        ),
        [record(a=1, _n=2, _k=0), record(a=2, _n=1, _k=1), record(a=3, _n=0, _k=0)],
    ),
    Network(
        "a deterministic split inside a free star",
        f"box f ((a) -> (a)) {{ out 1(a + 1) }} net main ({{a,<n>,<k>}} -> {{a,<n>,<k>}}) connect ((f .. {DOWN}) !! <k>) * {DONE};",
        star(free, is_done, split(in_turn, "<k>", serial(taking("a")(lambda a: [{"a": a + 1}]), counts_down()))),
        [record(a=1, _n=2, _k=0), record(a=2, _n=1, _k=1), record(a=3, _n=1, _k=0)],
    ),
    Network(
        "arms in a free choice inside a free star",
        "net main ({a,<n>} | {b,<n>} -> {a,<n>} | {b,<n>}) connect "
        "([{a,<n>} if (<n> % 2 == 0) -> {a,<n>=<n>-1} else -> {b=a,<n>=<n>-1}] "
        "| [{b,<n>} if (<n> > 1) -> {a=b,<n>=<n>-1} if (<n> == 1) -> {b,<n>=0};{a=b,<n>=0} else -> {b,<n>}]) * " + f"{DONE};",
        star(
            free,
            is_done,
            choice(
                free,
                (
                    {"a"},
                    taking("a", "<n>")(lambda a, n: [{"b": a, "<n>": n - 1}] if n % 2 else [{"a": a, "<n>": n - 1}]),
                ),
                ({"b"}, taking("b", "<n>")(lambda b, n: [{"a": b, "<n>": n - 1}] if n > 1 else [{"b": b, "<n>": 0}, {"a": b, "<n>": 0}])),
            ),
        ),
        [record(a=1, _n=2), record(b=2, _n=1)],
    ),
    # What has the binding tag goes to the branch that names it, though the other one names more labels.
    Network(
        "a free choice told by a binding tag",
        "net main ({a,b,c} | {a,b,c,<#k>} -> {x} | {b,c,y}) connect [{a,<#k>} -> {y=a}] | [{a,b,c} -> {x=a}];",
        choice(
            free,
            ({"<#k>"}, taking("a", "<#k>")(lambda a, _: [{"y": a}])),
            ({"a"}, taking("a", "b", "c")(lambda a, *_: [{"x": a}])),
        ),
        [record(a=1, b=0, c=0), record(a=2, b=0, c=0, __k=7), record(a=3, b=0, c=0), record(a=4, b=0, c=0, __k=7)],
    ),
    Network(
        "a free split by a binding tag",
        "box f ((a,<#k>) -> (x,<#k>)) { out 1(a + 1, <#k>) } net main ({a,<#k>} -> {x,<#k>}) connect f ! <#k>;",
        split(free, "<#k>", taking("a")(lambda a: [{"x": a + 1}])),
        [record(a=1, __k=0), record(a=2, __k=1), record(a=3, __k=0), record(a=4, __k=1)],
    ),
    Network(
        "a free star whose exit has a binding tag",
        "net main ({a} | {b} -> {c,<#done>}) connect ([{a} -> {b=a}] || [{b} -> {c=b,<#done>=1}]) * {c,<#done>};",
        star(
            free,
            lambda r: "<#done>" in dict(r),
            choice(in_turn, ({"a"}, renames("a", "b")), ({"b"}, taking("b")(lambda b: [{"c": b, "<#done>": 1}]))),
        ),
        [record(a=1), record(b=2), record(a=3)],
    ),
]


def input_line(r):
    return "{" + ",".join(f"{label}={value}" for label, value in sorted(r)) + "}\n"
