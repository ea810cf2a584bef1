#!/usr/bin/env python3
"""Writes the reader's tables from tools/grammar.txt.

Use: python3 tools/reader_tables.py

What it writes is committed as it is (`rt fmt` changes nothing of it), and the prover checks it: a
first set that is too small, a rule that the next token does not decide or a table that differs from
the definitions is refused there. So nothing here is trusted. The head of tools/grammar.txt explains
the notation.
"""
import re
import sys
import textwrap
from pathlib import Path

ROOT = Path(__file__).resolve().parent.parent
GRAMMAR = ROOT / "crates/c_grammar"
READER = ROOT / "crates/c_reader"
HEAD = "Written by tools/reader_tables.py."

MARKS = {"": "Skip", "$": "Keep", "+": "Open", "$+": "OpenKeep", "#": "Count", "$#": "CountKeep"}


class Rule:
    """A rule: the sorts that it finds and leaves, oldest first, its alternatives and its text."""

    def __init__(self, name, finds, leaves, text):
        self.name, self.finds, self.leaves, self.text = name, finds, leaves, text
        self.alternatives = []


class Grammar:
    """The grammar as the file has it: each section by its lines."""

    def __init__(self, path):
        sections, current = {}, None
        self.headings, heading = {}, None
        for line in path.read_text().splitlines():
            if re.fullmatch(r"\[[a-z ]+\]", line):
                current = sections.setdefault(line[1:-1], [])
            elif current is not None and line.startswith("# "):
                heading = line[2:]
            elif current is not None and line.strip():
                current.append(line)
                if heading:
                    self.headings[line.split()[0]] = heading
                    heading = None
        self.classes = " ".join(sections["classes"]).split()
        self.words = [tuple(line.split()) for line in sections["words"]]
        self.map_words = [tuple(line.split()) for line in sections["map words"]]
        self.left_out = " ".join(sections["left out"]).split()
        self.signs = [tuple(line.split()) for line in sections["signs"]]
        self.sorts = " ".join(sections["sorts"]).split()
        self.actions = {"Leave": ([], []), "Outer": ([], [])}
        self.functions = {}
        for line in sections["actions"]:
            line, function = line.split(" : ")
            finds, leaves = line.split("->")
            name, *finds = finds.split()
            self.actions[name] = (finds, leaves.split())
            path, *alloc = function.split()
            self.functions[name] = f"{path}({', '.join(alloc + ['values'])})"
        spellings = self.words + self.signs + self.map_words
        self.kinds = self.classes + [kind for kind, _ in spellings]
        self.spelled = {spelling: kind for kind, spelling in spellings}
        self.spelled.update({kind.upper(): kind for kind in self.classes})
        self.kept = dict(line.split() for line in sections["kept"])
        self.rules = self.read_rules(sections["rules"] + level_rules(sections["levels"]))
        self.reader = self.read_rules(sections["reader"])
        self.starts = {}
        for line in sections["start"]:
            name, body = line.split("=", 1)
            self.starts[snake(name.strip())] = self.symbols(body)
        self.order = list(self.rules) + [r for r in self.reader if r not in self.rules]
        self.paper = {r: self.rules.get(r) or self.reader[r] for r in self.order}
        self.choices = {r: self.reader.get(r) or self.rules[r] for r in self.order}

    def read_rules(self, lines):
        joined = []
        for line in lines:
            if line[0].isspace():
                joined[-1] += " " + line.strip()
            else:
                joined.append(line)
        rules = {}
        for line in joined:
            name, finds, leaves, body = re.fullmatch(r"(\w+) \[(.*?)->(.*?)\] = ?(.*)", line).groups()
            rule = Rule(name, finds.split(), leaves.split(), line)
            rule.alternatives = [self.symbols(part) for part in split_bars(body)]
            rules[name] = rule
        return rules

    def symbols(self, text):
        """The symbols of an alternative."""
        found = []
        for word in re.findall(r'!?"[^"]*"[$+#]*|[!@]?\w+[$+#]*', text):
            body, marks = re.fullmatch(r'(!?"[^"]*"|[!@]?\w+)([$+#]*)', word).groups()
            if body[0] == "@":
                found.append(("Act", body[1:]))
            elif body[0] == "!":
                found.append(("Unless", self.spelled[body[2:-1]]))
            elif body[0] == '"':
                found.append(("Take", self.spelled[body[1:-1]], MARKS[marks]))
            elif body.isupper():
                found.append(("Take", self.spelled[body], MARKS[marks]))
            else:
                found.append(("Expand", body))
        return found


def snake(name):
    return re.sub(r"(?<!^)(?=[A-Z])", "_", name).lower()


def level_rules(lines):
    """The rules of the operators between operands, over each of the operands."""
    operands = [line.split() for line in lines if '"' not in line]
    levels = [line.split(maxsplit=1) for line in lines if '"' in line]
    rules = []
    for operand, top in operands:
        prefix, below = top.removesuffix("Expr"), operand
        for i, (name, _) in enumerate(levels):
            rule = top if i == len(levels) - 1 else prefix + name
            rules.append(f"{rule} [-> Operand] = {below} {rule}Tail")
            rules.append(f"{rule}Tail [Operand -> Operand] = {name}Op {below} @Bin {rule}Tail |")
            below = rule
    for name, signs in levels:
        rules.append(f"{name}Op [-> Word] = " + " | ".join(f"{sign}$#" for sign in signs.split()))
    return rules


def split_bars(body):
    """The parts between the bars that stand outside quotes."""
    return re.split(r'\|(?=(?:[^"]*"[^"]*")*[^"]*$)', body)


class Tables:
    """What the next token decides: first sets, what is blocked behind a rule, ranks, and the rules that are expanded."""

    def __init__(self, rules, starts):
        self.rules = {r: rule.alternatives for r, rule in rules.items()}
        self.null = dict.fromkeys(self.rules, False)
        self.first = {r: [] for r in self.rules}
        self.grow(self.first_step)
        guarded = {r: [s[1] for a in alts for s in a if s[0] == "Unless"] for r, alts in self.rules.items()}
        self.blocked = {r: [k for k in self.first[r] if self.null[r] and k not in guarded[r]] for r in self.rules}
        self.conflicts = set()
        self.used = set()
        for symbols in starts.values():
            self.use(symbols)
        self.grow(self.blocked_step)
        self.find_doubles()
        self.rank = dict.fromkeys(self.rules, 1)
        for _ in self.rules:
            for r in self.used:
                self.rank[r] = max([1] + [self.work(a) + 1 for a in self.rules[r]])

    def grow(self, step):
        while any([step(r, a) for r in self.rules for a in self.rules[r]]):
            pass

    def use(self, symbols):
        for s in symbols:
            if s[0] == "Expand" and s[1] not in self.used:
                self.used.add(s[1])
                for a in self.rules[s[1]]:
                    self.use(a)

    def front(self, symbols):
        """The kinds that the symbols begin with, and whether they may be nothing."""
        found = []
        for s in symbols:
            if s[0] == "Take":
                return found + [s[1]], False
            if s[0] == "Expand":
                found += self.first[s[1]]
                if not self.null[s[1]]:
                    return found, False
        return found, True

    def first_step(self, r, a):
        found, empty = self.front(a)
        grew = add(self.first[r], found)
        if empty and not self.null[r]:
            self.null[r] = grew = True
        return grew

    def blocked_step(self, r, a):
        grew = False
        for i, s in enumerate(a):
            if s[0] != "Expand":
                continue
            found, empty = self.front(a[i + 1:])
            if r in self.used:
                self.conflicts.update((r, s[1], k) for k in self.blocked[s[1]] if k in found)
            if empty:
                grew |= add(self.blocked[r], self.blocked[s[1]])
        return grew

    def find_doubles(self):
        for r in self.used:
            seen = set()
            for a in self.rules[r]:
                for k in set(self.front(a)[0]):
                    if k in seen:
                        self.conflicts.add((r, "two alternatives", k))
                    seen.add(k)

    def work(self, symbols):
        total = 0
        for s in symbols:
            if s[0] == "Take":
                return total
            if s[0] == "Expand":
                total += self.rank[s[1]]
                if not self.null[s[1]]:
                    return total
            else:
                total += 1
        return total


def add(target, kinds):
    new = [k for k in dict.fromkeys(kinds) if k not in target]
    target += new
    return bool(new)


def check_sorts(grammar):
    """That each alternative turns what its rule finds into what the rule leaves: the proof has the last word on it."""
    for rules in (grammar.paper, grammar.choices):
        for name, rule in rules.items():
            for alternative in rule.alternatives:
                stack = list(rule.finds)
                for s in alternative:
                    if s[0] == "Take":
                        stack += [grammar.kept.get(s[1], "Word")] if "Keep" in s[2] else []
                    elif s[0] != "Unless":
                        finds, leaves = grammar.actions[s[1]] if s[0] == "Act" else (rules[s[1]].finds, rules[s[1]].leaves)
                        have = stack[len(stack) - len(finds):] if len(stack) >= len(finds) else None
                        if have != finds:
                            sys.exit(f"{name}: {s[1]} finds {stack}, and wants {finds}")
                        stack = stack[:len(stack) - len(finds)] + leaves
                if stack != rule.leaves:
                    sys.exit(f"{name}: an alternative leaves {stack}")


# Texts.

def row(items, empty="[]"):
    """A list in the definitions' notation."""
    return " ∷ ".join(list(items) + [empty])


def wrapped(head, items, width=110):
    """A list on lines of at most this width, the later ones indented."""
    lines, line = [], head
    for item in items:
        piece = f"{item} ∷ "
        if len(line) + len(piece) > width:
            lines.append(line.rstrip())
            line = "    "
        line += piece
    return "\n".join(lines + [line + "[]"])


def symbol(s):
    """A symbol in the definitions' notation."""
    if s[0] == "Take":
        return f"Take kind.{s[1]} {s[2]}"
    if s[0] == "Unless":
        return f"Unless kind.{s[1]}"
    return f"Act action.{s[1]}" if s[0] == "Act" else f"Expand rule.{s[1]}"


def alternatives(name, rule, function):
    """The clause of a rule."""
    if not any(rule.alternatives) and len(rule.alternatives) == 1:
        return f"{function} rule.{name} = [] ∷ []"
    parts = ["(" + row(map(symbol, a)) + ")" if a else "[]" for a in rule.alternatives]
    return "\n".join([f"{function} rule.{name} ="] + ["    " + ("∷ " if i else "") + part for i, part in enumerate(parts)] + ["    ∷ []"])


def code_symbol(s):
    """A symbol in the code."""
    if s[0] == "Take":
        return f"Take(Kind::{s[1]}, Mark::{s[2]})"
    if s[0] == "Unless":
        return f"Unless(Kind::{s[1]})"
    return f"Act(Action::{s[1]})" if s[0] == "Act" else f"Expand(Rule::{s[1]})"


def broken(head, items, width=100):
    """An array of the code on lines of at most this width, the later ones indented."""
    items = list(items)
    lines, line = [], head
    for i, item in enumerate(items):
        piece = item + ("," if i + 1 < len(items) else "],")
        gap = "" if line.endswith("[") or line.isspace() else " "
        if len(line) + len(gap) + len(piece) > width:
            lines.append(line)
            line, gap = " " * 16, ""
        line += gap + piece
    return "\n".join(lines + [line]) if items else head + "],"


def write(path, text):
    path.parent.mkdir(parents=True, exist_ok=True)
    path.write_text(text.rstrip() + "\n")


def uses(prefix, pairs):
    return "\n".join(f"use {prefix}.{pair}" for pair in pairs)


DECLARED = "Rattle.c_grammar.specs.declared"


def named(symbols_of, marks=True):
    """The import lines for what the alternatives name."""
    found = [s for rule in symbols_of for a in rule.alternatives for s in a]
    lines = []
    if any(s[0] in ("Take", "Unless") for s in found):
        lines.append(f"use {DECLARED}.kind.Kind.TheVariants as kind")
    lines.append(f"use {DECLARED}.rule.Rule.{{Rule}}")
    lines.append(f"use {DECLARED}.rule.Rule.TheVariants as rule")
    if any(s[0] == "Act" for s in found):
        lines.append(f"use {DECLARED}.action.Action.TheVariants as action")
    lines.append(f"use {DECLARED}.symbol.Symbol.{{Symbol}}")
    constructors = [c for c in ("Take", "Unless", "Act", "Expand") if any(s[0] == c for s in found)]
    lines.append(f"use {DECLARED}.symbol.Symbol.TheVariants.{{{', '.join(constructors)}}}")
    kept = [m for m in MARKS.values() if any(s[0] == "Take" and s[2] == m for s in found)]
    if kept:
        lines.append(f"use {DECLARED}.symbol.Mark.TheVariants.{{{', '.join(kept)}}}")
    return "\n".join(lines)


CLASSES = {
    "Name": "An identifier that is no word of the language (ISO C11, 6.4.2).",
    "Number": "An integer constant (ISO C11, 6.4.4.1).",
    "Char": "A character constant (ISO C11, 6.4.4.4).",
    "String": "A string literal (ISO C11, 6.4.5).",
    "Include": "A line with `#include` (ISO C11, 6.10.2), or the front of a directive that is at fault.",
    "Define": "A line with `#define` (ISO C11, 6.10.3).",
    "LeftOut": "A word of C that is left out.",
    "Other": "A number that no sign has.",
}


def documented(items):
    """The variants of an enum, each under its lines of documentation."""
    lines = []
    for name, text in items:
        lines += textwrap.wrap(text, 100, initial_indent="    /// ", subsequent_indent="    /// ", break_long_words=False)
        lines.append(f"    {name},")
    return "\n".join(lines)


def write_kinds(g):
    spelling = {kind: f"`{text}`" for kind, text in g.words + g.signs + g.map_words}
    body = documented((k, CLASSES.get(k) or spelling[k]) for k in g.kinds)
    write(GRAMMAR / "src/kind.rt", f"""//! What a token is to the grammar. {HEAD}

/// What a token is to the grammar: a class of tokens, a word or a sign (ISO C11, 6.4). The last
/// ones are words of mappings, which are names in a source.
#[derive(Clone, Copy)]
pub enum Kind {{
{body}
}}
""")


def write_rule_names(g):
    lines = []
    for name, rule in g.paper.items():
        if name in g.headings:
            lines += [""] * bool(lines) + [f"    // {g.headings[name]}."]
        lines.append(documented([(name, "`" + rule.text.strip() + "`")]))
    body = "\n".join(lines)
    write(GRAMMAR / "src/rule.rt", f"""//! The rules of the grammar. {HEAD}

/// A rule of the grammar, or a part that the reader factors a rule into. Each is written as the
/// sorts of the values that it finds and leaves, and its alternatives, as in tools/grammar.txt.
#[derive(Clone, Copy)]
pub enum Rule {{
{body}
}}
""")


def write_actions(g):
    def sorts(finds, leaves):
        return "`" + " ".join(finds + ["->"] + leaves) + "`"

    special = {"Leave": "Leaves the values, and closes a construct.", "Outer": "Leaves the values, and counts operators anew."}
    body = documented((a, special.get(a) or sorts(*s)) for a, s in g.actions.items())
    write(GRAMMAR / "src/action.rt", f"""//! What is done with the values that were read. {HEAD}

/// A change of the values that were read: the sorts of those that it takes, the newest last, and of
/// those that it puts in their place.
#[derive(Clone, Copy)]
pub enum Action {{
{body}
}}
""")
    arms = "\n".join(f"        Action::{a} => {f}," for a, f in g.functions.items())
    modules = ", ".join(sorted({f.split("::")[0] for f in g.functions.values()}))
    write(GRAMMAR / "src/actions/acts.rt", f"""//! Which function does an action. {HEAD}

ghost use Rattle.std.specs.Prelude.{{◌≡◌, reverse, OnOk}};
ghost use Rattle.c_grammar.specs.Effects.{{value_effect}};

use crate::action::Action;
use crate::actions::{{{modules}}};
use crate::value::Value;
use std::alloc::{{AllocError, Global}};

/// Does the action: the values become what its definition makes of them. The newest value is last.
#[rattlefmt::skip]
pub fn act(alloc: Global, action: Action, values: &mut Vec<Value>) -> Result<(), AllocError>
    ensures {{ OnOk result
        (reverse values.new.items ≡ value_effect action (reverse values.old.items)) }}
{{
    match action {{
        Action::Leave | Action::Outer => Ok(()),
{arms}
    }}
}}
""")


def write_words(g):
    pairs = [(spelling, kind) for kind, spelling in g.words] + [(word, "LeftOut") for word in g.left_out]
    entries = "".join(f'        (b"{spelling}", Kind::{kind}),\n' for spelling, kind in pairs)
    mapped = "".join(f'        (b"{spelling}", Kind::{kind}),\n' for kind, spelling in g.map_words)
    signs = "".join(f"        Kind::{kind}, // {spelling}\n" for kind, spelling in g.signs)
    write(GRAMMAR / "src/words.rt", f"""//! The words with a meaning, and the signs. {HEAD}

ghost use Rattle.std.specs.Prelude.{{◌≡◌, map}};
ghost use Rattle.c_grammar.specs.Words as spec;

use crate::kind::Kind;

/// The words that are no names, with their kinds.
#[rattlefmt::skip]
#[tactic(auto, unfolding(crate::specs::Words::words))]
pub fn words() -> &'static [(&'static [u8], Kind)]
    ensures {{ map (λ w. record {{ text = w.0.now; kind = w.1 }}) result.now ≡ spec.words }}
{{
    &[
{entries}    ]
}}

/// The names that have a meaning in mappings, with their kinds.
#[rattlefmt::skip]
#[tactic(auto, unfolding(crate::specs::Words::map_words))]
pub fn map_words() -> &'static [(&'static [u8], Kind)]
    ensures {{ map (λ w. record {{ text = w.0.now; kind = w.1 }}) result.now ≡ spec.map_words }}
{{
    &[
{mapped}    ]
}}

/// The kinds of the signs, in the order of their numbers.
#[rattlefmt::skip]
#[tactic(auto, unfolding(crate::specs::Words::signs))]
pub fn signs() -> &'static [Kind]
    ensures {{ result.now ≡ spec.signs }}
{{
    &[
{signs}    ]
}}
""")
    lines = [f'record {{ text = codes "{spelling}"; kind = kind.{kind} }}' for spelling, kind in pairs]
    entries = "\n".join("    " + line + " ∷" for line in lines)
    lines = [f'record {{ text = codes "{spelling}"; kind = kind.{kind} }}' for kind, spelling in g.map_words]
    mapped = "\n".join("    " + line + " ∷" for line in lines)
    signs = wrapped("signs = ", [f"kind.{kind}" for kind, _ in g.signs])
    write(GRAMMAR / "specs/Words.antt", f"""-- The words with a meaning, and the signs. {HEAD}
use Rattle.std.specs.Prelude.{{ℕ, List, [], ◌∷◌, codes}}
use {DECLARED}.kind.Kind.{{Kind}}
use {DECLARED}.kind.Kind.TheVariants as kind

-- a word with its kind
pub record Entry : Type 0 where
  pub text : List ℕ
  pub kind : Kind

-- the words that are no names
unfoldable pub words : List Entry
words =
{entries}
    []

-- the names that have a meaning in mappings
unfoldable pub map_words : List Entry
map_words =
{mapped}
    []

-- the signs, in the order of their numbers
unfoldable pub signs : List Kind
{signs}
""")


WHOLE = {
    "start": "what a whole source is",
    "expr_start": "what a whole expression of a mapping is",
    "map_start": "what a whole mapping is",
    "first_map_start": "what a whole mapping of the first format is, where a point has one part",
}


def write_rules(g):
    text = []
    for name, rule in g.paper.items():
        text.append("-- " + rule.text)
        text.append(alternatives(name, rule, "alternatives"))
    starts = []
    for name, symbols in g.starts.items():
        starts.append(f"-- {WHOLE[name]}\nabbrev pub {name} : List Symbol\n{name} = {row(map(symbol, symbols))}\n")
    body, starts = "\n".join(text) + "\n", "\n".join(starts)
    write(GRAMMAR / "specs/Rules.antt", f"""-- The rules of the grammar, each with its alternatives. {HEAD}
-- A part that stands or doesn't, or that stands any number of times, is a rule of its own.
use Rattle.std.specs.Prelude.{{List, [], ◌∷◌}}
{named(g.paper.values())}

-- the alternatives of each rule, of which a text of the rule follows one
abbrev pub alternatives : Rule → List (List Symbol)
{body}
{starts}
""")


def write_reader(g, t):
    different = {r: rule for r, rule in g.reader.items() if r in g.rules}
    if different:
        clauses = "\n".join(alternatives(r, rule, "choices") for r, rule in different.items())
        imports = named(different.values())
    else:
        clauses, imports = "", f"use {DECLARED}.rule.Rule.{{Rule}}\nuse {DECLARED}.rule.Rule.TheVariants as rule\nuse {DECLARED}.symbol.Symbol.{{Symbol}}"
    if "as kind" not in imports:
        imports = f"use {DECLARED}.kind.Kind.TheVariants as kind\n" + imports
    codes = "\n".join(f"code kind.{k} = {i}" for i, k in enumerate(g.kinds))
    firsts = "\n".join(wrapped(f"first_kinds rule.{r} = ", [f"kind.{k}" for k in t.first[r]]) for r in g.order)
    write(READER / "specs/Choices.antt", f"""-- The reader's alternatives, of which the next token chooses one. {HEAD}
use Rattle.std.specs.Prelude.{{ℕ, List, [], ◌∷◌}}
use {DECLARED}.kind.Kind.{{Kind}}
{imports}
use Rattle.c_grammar.specs.Rules.{{alternatives}}

-- the reader's alternatives: the grammar's, but where several begin alike
abbrev pub choices : Rule → List (List Symbol)
{clauses}
choices r = alternatives r

-- a number for each kind
abbrev pub code : Kind → ℕ
{codes}

-- the kinds that a rule's texts begin with
abbrev pub first_kinds : Rule → List Kind
{firsts}
""")
    blocked = "\n".join(wrapped(f"blocked_kinds rule.{r} = ", [f"kind.{k}" for k in t.blocked[r]]) for r in g.order)
    ranks = "\n".join(f"rank rule.{r} = {t.rank[r] if r in t.used else 9}" for r in g.order)
    unused = "".join(f"used_rules rule.{r} = false\n" for r in g.order if r not in t.used)
    write(READER / "specs/Ranks.antt", f"""-- What cannot follow a rule, which rules the reader expands, and a number for each. {HEAD}
use Rattle.std.specs.Prelude.{{ℕ, List, [], ◌∷◌, Bool, true{', false' if unused else ''}}}
use {DECLARED}.kind.Kind.{{Kind}}
use {DECLARED}.kind.Kind.TheVariants as kind
use {DECLARED}.rule.Rule.{{Rule}}
use {DECLARED}.rule.Rule.TheVariants as rule

-- the kinds that cannot follow a rule's texts
abbrev pub blocked_kinds : Rule → List Kind
{blocked}

-- the rules that the reader expands
abbrev pub used_rules : Rule → Bool
{unused}used_rules r = true

-- a number for each rule, above what its alternatives hold before they take a token
abbrev pub rank : Rule → ℕ
{ranks}
""")
    arms = []
    for r in g.order:
        arms.append(f"        Rule::{r} => &[")
        arms += [broken("            &[", map(code_symbol, a)) for a in g.choices[r].alternatives]
        arms.append("        ],")
    firsts = [broken(f"        Rule::{r} => &[", t.first[r]) for r in g.order]
    arms, firsts = "\n".join(arms), "\n".join(firsts)
    used = sorted({s[0] for r in g.order for a in g.choices[r].alternatives for s in a})
    write(READER / "src/table.rt", f"""//! The tables: the alternatives of each rule, and the kinds that its texts begin with.
//! {HEAD}

ghost use Rattle.std.specs.Prelude.{{◌≡◌, map}};
ghost use Rattle.c_reader.specs.Choices.{{choices, first_kinds}};

use c_grammar::Symbol::{{{', '.join(used)}}};
use c_grammar::{{Action, Kind, Mark, Rule, Symbol}};

/// The alternatives of a rule, of which the next token picks one.
#[rattlefmt::skip]
pub fn alternatives_of(rule: Rule) -> &'static [&'static [Symbol]]
    ensures {{ map (λ s. s.now) result.now ≡ choices rule }}
{{
    match rule {{
{arms}
    }}
}}

/// The kinds that a rule's texts begin with.
#[rattlefmt::skip]
pub fn first_kinds_of(rule: Rule) -> &'static [Kind]
    ensures {{ result.now ≡ first_kinds rule }}
{{
    use Kind::*;
    match rule {{
{firsts}
    }}
}}
""")


def later(n, inner):
    """The place after so many others."""
    return inner if n == 0 else "(" + "later (" * (n - 1) + "later " + inner + ")" * n if n else inner


def place(n, inner="first"):
    text = inner
    for _ in range(n):
        text = f"later {text}" if text == inner else f"later ({text})"
    return text


def write_proofs(g, t):
    kinds = wrapped("all_kinds = ", [f"kind.{k}" for k in g.kinds])
    places = "\n".join(f"kind_place kind.{k} = refl" for k in g.kinds)
    among = "\n".join(f"kind_among kind.{k} = {place(i)}" for i, k in enumerate(g.kinds))
    tests = "\n".join(f"table_test rule.{r} = refl" for r in g.order)
    ends = "\n".join(f"tables_good_end rule.{r} = refl" for r in g.order)
    ranks = "\n".join(f"ranks_good rule.{r} = refl" for r in g.order)
    free = "\n".join(f"named_good rule.{r} = refl" for r in g.order)
    quiet = "\n".join(f"quiet_good rule.{r} = refl" for r in g.order)
    write(READER / "proofs/Tables.antt", f"""-- Facts of the tables that the check computes. {HEAD}
use Rattle.std.proofs.Common.{{List, [], ◌∷◌, Bool, true, ◌≡◌, refl, Some}}
use Rattle.std.specs.Prelude.{{nat_lt}}
use Rattle.std.specs.List.{{list_all, slice_get}}
use {DECLARED}.kind.Kind.{{Kind}}
use {DECLARED}.kind.Kind.TheVariants as kind
use {DECLARED}.rule.Rule.{{Rule}}
use {DECLARED}.rule.Rule.TheVariants as rule
use Rattle.c_grammar.specs.Rules.{{alternatives}}
use Rattle.c_grammar.specs.Reading.{{Among, first, later}}
use Rattle.c_reader.specs.Choices.{{choices, first_kinds, code}}
use Rattle.c_reader.specs.Ranks.{{blocked_kinds, used_rules, rank}}
use Rattle.c_reader.specs.Follow.{{work_then}}
use Rattle.c_reader.specs.Depth.{{quiet}}
use Rattle.c_reader.proofs.LeftOut.{{names}}
use Rattle.c_reader.proofs.Choice.{{test_at, test_end, all_of, implies}}

abbrev pub all_kinds : List Kind
{kinds}

pub kind_place : (k : Kind) → slice_get all_kinds (code k) ≡ Some k
{places}

kind_among : (k : Kind) → Among k all_kinds
{among}

table_test : (r : Rule) → list_all (λ k. test_at choices first_kinds blocked_kinds used_rules r k) all_kinds ≡ true
{tests}

pub tables_good : (r : Rule) (k : Kind) → test_at choices first_kinds blocked_kinds used_rules r k ≡ true
tables_good r k = all_of (λ q. test_at choices first_kinds blocked_kinds used_rules r q) (kind_among k) (table_test r)

pub tables_good_end : (r : Rule) → test_end choices first_kinds used_rules r ≡ true
{ends}

-- no alternative goes back up before it takes a token
pub quiet_good : (r : Rule) → list_all (quiet choices) (choices r) ≡ true
{quiet}

-- no alternative takes a left-out word
pub named_good : (r : Rule) → list_all names (alternatives r) ≡ true
{free}

-- an alternative's work is less than its rule's
abbrev pub rank_test : Rule → Bool
rank_test r = implies (used_rules r) (list_all (λ symbols. nat_lt (work_then choices rank symbols 0) (rank r)) (choices r))

pub ranks_good : (r : Rule) → rank_test r ≡ true
{ranks}
""")
    tags = "\n".join(f"tag_code kind.{k} = refl" for k in g.kinds)
    write(READER / "proofs/KindNumbers.antt", f"""-- A kind's number in the code is its number here. {HEAD}
use Rattle.std.proofs.Common.{{◌≡◌, refl, ◌∙◌, sym, ap, Option, Some}}
use Rattle.std.specs.Prelude.{{nat_eq}}
use denote.Enum.Declared.{{tag_of}}
use Rattle.c_grammar.specs.contracts.kind.Kind.{{the_type}}
use {DECLARED}.kind.Kind.{{Kind}}
use {DECLARED}.kind.Kind.TheVariants as kind
use Rattle.c_reader.specs.Choices.{{code}}
use Rattle.c_reader.specs.Picks.{{is_kind}}

tag_code : (k : Kind) → tag_of the_type k ≡ code k
{tags}

pub decided : (k n : Kind) (ahead : Option Kind) → ahead ≡ Some n → nat_eq (tag_of the_type k) (tag_of the_type n) ≡ is_kind k ahead
decided k n ahead e = ap (λ x. nat_eq x (tag_of the_type n)) (tag_code k) ∙ ap (λ x. nat_eq (code k) x) (tag_code n) ∙ ap (λ o. is_kind k o) (sym e)
""")


def write_shapes(g):
    def sorts(items):
        return row(list(reversed(items)))

    wants = "\n".join(f"wants action.{a} = {sorts(f)}" for a, (f, _) in g.actions.items())
    makes = "\n".join(f"makes action.{a} = {sorts(m)}" for a, (_, m) in g.actions.items())
    takes = "\n".join(f"takes rule.{r} = {sorts(rule.finds)}" for r, rule in g.paper.items())
    gives = "\n".join(f"gives rule.{r} = {sorts(rule.leaves)}" for r, rule in g.paper.items())
    codes = "\n".join(f"sort_code {s} = {i}" for i, s in enumerate(g.sorts))
    chain = f"Some {g.sorts[-1]}"
    for i, s in reversed(list(enumerate(g.sorts[:-1]))):
        chain = f"cond (nat_eq n {i}) (Some {s}) ({chain})"
    backs = "\n".join(f"sort_back {s} = refl" for s in g.sorts)
    typed = []
    for r, rule in g.paper.items():
        n = len(rule.alternatives)
        for i in range(n):
            typed.append(f"rule_sorts rule.{r} front {'(' + place(i) + ')' if i else 'first'} = refl")
        typed.append(f"rule_sorts rule.{r} front ({place(n, 'm')}) = elim m [ ]")
    typed = "\n".join(typed)
    chosen = []
    for r, rule in g.reader.items():
        if r in g.rules:
            n = len(rule.alternatives)
            for i in range(n):
                chosen.append(f"choice_sorts rule.{r} front {'(' + place(i) + ')' if i else 'first'} = refl")
            chosen.append(f"choice_sorts rule.{r} front ({place(n, 'm')}) = elim m [ ]")
    chosen = "\n".join(chosen + ["choice_sorts r front m = rule_sorts r front m"])
    effects = []
    for a, (finds, leaves) in g.actions.items():
        inner = "e"
        for _ in finds:
            inner = f"older_sorts _ _ _ ({inner})" if inner != "e" else "older_sorts _ _ _ e"
        head = row([f"sort.{s}" for s in reversed(leaves)], "x")
        effects.append(f"effect_sorts action.{a} vs rest e = " + (f"ap (λ x. {head}) ({inner})" if leaves else inner))
    effects = "\n".join(effects)
    of = "\n".join(f"sort_of (value.{s} x) = {s}" for s in g.sorts)
    kept = "".join(f"kept_sort kind.{k} = {s}\n" for k, s in g.kept.items())
    listed = "\n".join(f"  {s} : Sort" for s in g.sorts)
    write(READER / "proofs/Sorts.antt", f"""-- The sorts of the values that actions and rules find, newest first, and of those that they leave in their place. {HEAD}
use Rattle.std.specs.Prelude.{{ℕ, List, [], ◌∷◌, nat_eq, cond}}
use Rattle.std.proofs.Common.{{◌≡◌, Option, Some, refl}}
use {DECLARED}.kind.Kind.{{Kind}}
use {DECLARED}.kind.Kind.TheVariants as kind
use {DECLARED}.rule.Rule.{{Rule}}
use {DECLARED}.rule.Rule.TheVariants as rule
use {DECLARED}.action.Action.{{Action}}
use {DECLARED}.action.Action.TheVariants as action
use {DECLARED}.value.Value.{{Value}}
use {DECLARED}.value.Value.TheVariants as value

pub data Sort : Type 0 where
{listed}

abbrev pub sort_of : Value → Sort
{of}

-- the sort of a token that is kept
abbrev pub kept_sort : Kind → Sort
{kept}kept_sort k = Word

abbrev pub wants : Action → List Sort
{wants}

abbrev pub makes : Action → List Sort
{makes}

abbrev pub takes : Rule → List Sort
{takes}

abbrev pub gives : Rule → List Sort
{gives}

-- a number for each sort
abbrev pub sort_code : Sort → ℕ
{codes}

abbrev pub sort_from : ℕ → Option Sort
sort_from n = {chain}

pub sort_back : (s : Sort) → sort_from (sort_code s) ≡ Some s
{backs}
""")
    write(READER / "proofs/SortTables.antt", f"""-- Each action and each rule finds and leaves values of its sorts. {HEAD}
use Rattle.std.specs.Prelude.{{List, [], ◌∷◌, nat_eq, cond, Bool, true, false}}
use Rattle.std.proofs.Common.{{◌≡◌, ℕ, ◌++◌, Option, Some, None, refl, sym, ◌∙◌, ap, eqb-true}}
use {DECLARED}.symbol.Symbol.{{Symbol}}
use {DECLARED}.value.Value.{{Value}}
use {DECLARED}.rule.Rule.{{Rule}}
use {DECLARED}.rule.Rule.TheVariants as rule
use {DECLARED}.action.Action.{{Action}}
use {DECLARED}.action.Action.TheVariants as action
use Rattle.c_grammar.specs.Rules.{{alternatives}}
use Rattle.c_grammar.specs.Values.{{older}}
use Rattle.c_grammar.specs.Effects.{{value_effect}}
use Rattle.c_grammar.specs.Reading.{{Among, first, later}}
use Rattle.c_reader.specs.Choices.{{choices}}
use Rattle.c_reader.proofs.Sorts as sort
use Rattle.c_reader.proofs.Sorts.{{Sort, wants, makes, takes, gives}}
use Rattle.c_reader.proofs.SortRuns.{{sorts, run, older_sorts}}

-- each alternative turns what its rule finds into what the rule leaves
pub rule_sorts : (r : Rule) (front : List Symbol) → Among front (alternatives r) → run front (takes r) ≡ Some (gives r)
{typed}

-- so does each alternative of the reader
pub choice_sorts : (r : Rule) (front : List Symbol) → Among front (choices r) → run front (takes r) ≡ Some (gives r)
{chosen}

pub effect_sorts : (a : Action) (vs : List Value) (rest : List Sort) → sorts vs ≡ wants a ++ rest → sorts (value_effect a vs) ≡ makes a ++ rest
{effects}
""")


def main():
    g = Grammar(ROOT / "tools/grammar.txt")
    check_sorts(g)
    t = Tables(g.choices, g.starts)
    for conflict in sorted(t.conflicts):
        print("CONFLICT", *conflict)
    write_kinds(g)
    write_rule_names(g)
    write_actions(g)
    write_words(g)
    write_rules(g)
    write_reader(g, t)
    write_proofs(g, t)
    write_shapes(g)
    print(f"{len(g.kinds)} kinds, {len(g.order)} rules, {len(g.actions)} actions, "
          f"{sum(len(r.alternatives) for r in g.choices.values())} alternatives")


if __name__ == "__main__":
    main()
