#!/usr/bin/env python3
"""Counts the places of the design pass in crates/*/src/*.rt. Run from the top of the repository: count_design.py WHAT [-q]
WHAT is one of the functions below whose names begin with `do_`; -q prints the number alone. It finds candidates: a reader decides."""
import glob, re, sys
from collections import defaultdict
from itertools import combinations

ITEM = re.compile(r'^ *(?:pub(?:\([a-z]+\))? )?(?:const )?(?:unsafe )?(?:extern "C" )?fn (\w+)', re.M)


class Function:
    """name, params (name, type), result, clauses (kind, text), body; of a file `crate/file.rt`."""
    def __init__(self, file, name, public, params, result, clauses, body):
        self.file, self.name, self.public = file, name, public
        self.params, self.result, self.clauses, self.body = params, result, clauses, body
        self.place = f'{file}: {name}'


def files():
    for path in sorted(glob.glob('crates/*/src/**/*.rt', recursive=True)):
        crate, rest = path.split('/', 1)[1].split('/src/')
        yield f'{crate}/src/{rest}', open(path, encoding='utf-8').read()


def no_comments(text):
    return re.sub(r'//[^\n]*', '', text)


def closing(text, at, left='(', right=')'):
    depth = 0
    while True:
        depth += (text[at] == left) - (text[at] == right)
        if depth == 0:
            return at
        at += 1


def after_generics(text, at):
    """The place of the bracket that opens the parameters, behind `<..>` if there is one."""
    depth = 0
    while text[at] != '(' or depth:
        depth += (text[at] == '<') - (text[at] == '>' and text[at - 1] != '-')
        at += 1
    return at


def split_params(text):
    out, depth, start = [], 0, 0
    for i, c in enumerate(text):
        depth += (c in '([<{') - (c in ')]>}')
        if c == ',' and depth == 0:
            out.append(text[start:i])
            start = i + 1
    out.append(text[start:])
    return [p for p in (' '.join(q.split()) for q in out) if p]


def functions():
    for file, text in files():
        text = no_comments(text)
        for m in ITEM.finditer(text):
            open_at = after_generics(text, m.end())
            end = closing(text, open_at)
            params = [tuple(p.split(': ', 1)) if ': ' in p else (p, '') for p in split_params(text[open_at + 1:end])]
            stop = re.search(r'\n *\{\n|\{\}?\n|;\n', text[end:])
            if stop[0] == ';\n':
                continue
            head, start = text[end + 1:end + stop.start()], end + stop.start() + stop[0].index('{')
            body = text[start + 1:closing(text, start, '{', '}')]
            parts = re.split(r'\n\s*(requires|ensures)\b', head)
            result = parts[0].replace('->', '').split(' where ')[0].strip()
            clauses = []
            for kind, clause in zip(parts[1::2], parts[2::2]):
                inner = clause[clause.index('{') + 1:clause.rindex('}')]
                clauses.append((kind, ' '.join(inner.split())))
            yield Function(file, m[1], 'pub' in m[0].split('fn')[0], params, result, clauses, body.strip())


def enums():
    for file, text in files():
        text = no_comments(text)
        for m in re.finditer(r'^ *(pub(?:\([a-z]+\))? )?enum (\w+)[^{]*\{', text, re.M):
            body = text[m.end():closing(text, m.end() - 1, '{', '}')]
            yield file, m[2], split_params(body)


def shape(variants):
    """Option: two variants, one with nothing in it, the other with something. Result: two, one of which has an error. Names: none
    has anything in it."""
    held = [re.sub(r'^\w+\s*', '', v) for v in variants]
    names = [re.match(r'\w+', v)[0] for v in variants]
    refusal = any(n in ('Refused', 'Failed') for n in names)
    if not any(held):
        return 'names'
    if refusal:
        return 'result' if len(variants) == 2 else 'result+'
    if len(variants) == 2 and '' in held:
        return 'option'
    if any(n in ('Bad', 'Unsound', 'Damaged', 'Nothing', 'None') for n in names):
        return 'refusal+'
    return 'other'


# 1

def do_enums():
    return [f'{f}: {n}: {shape(v)}: {" | ".join(v)}' for f, n, v in enums()]


def do_options():
    return [line for line in do_enums() if line.split(': ')[2] not in ('names', 'other')]


def do_maps():
    """Functions that take such an enum, and whose body is one match of it and nothing else."""
    mine = {n for _, n, v in enums() if shape(v) not in ('names', 'other')}
    return [f'{f.place}: matches {hit}' for f in functions()
            for hit in [next((t for _, t in f.params if t in mine), None)]
            if hit and f.body.startswith('match ') and closing(f.body, f.body.index('{'), '{', '}') == len(f.body) - 1]


def do_forwards():
    """Arms that only hand a refusal on: `X::Refused(e) => Y::Refused(e)`, `X::Unsound => Y::Unsound` and the like."""
    arm = re.compile(r'^\s*(\w+)::(\w+)(?:\((\w+)\))? => (?:return )?(\w+)::(\w+)(?:\((\w+)\))?,', re.M)
    bad = {'Refused', 'Unsound', 'Damaged', 'Bad', 'Nothing'}
    return [f'{f.place}: {m[0].strip()}' for f in functions() for m in arm.finditer(f.body)
            if m[2] in bad and m[5] in bad and (m[3] or '') == (m[6] or '')]


def do_bools():
    """Functions that answer a flag and write through a `&mut` as well."""
    return [f.place for f in functions() if f.result == 'bool' and any('&mut' in t for _, t in f.params)]


def do_codes():
    """Numbers that stand for kinds or refusals: a literal answered from an arm or given as a kind."""
    pat = re.compile(r'=> \d+,|(?:numbered|two_results)\(\d+,|^\s*1$|b"10\\n"', re.M)
    return [f'{f.place}: {m[0].strip()}' for f in functions() for m in pat.finditer(f.body)]


def do_zeros():
    """0 as `none`: a test against 0 of a number of an entry, a bucket's head, or a count of chains."""
    pat = re.compile(r'\b(at|head|link|last|before|entry|found|free|free_head|scan_chains|cursor|buckets\[[^\]]*\])\s*(==|!=)\s*0\b'
                     r'|scan_chains: 0|0 < scan_chains')
    return [f'{f.place}: {m[0]}' for f in functions() for m in pat.finditer(f.body)]


# 2

TOKEN = re.compile(r"b?'(?:\\.|[^'])'|\"[^\"]*\"|\w+(?:::\w+)*|[^\w\s]")


def skeleton(text):
    """The tokens, every name and number replaced by the order in which it first comes."""
    seen, out = {}, []
    for t in TOKEN.findall(re.sub(r',(\s*[)\]}])', r'\1', text)):
        if re.match(r"[\w'\"]", t) and t not in KEPT:
            out.append(seen.setdefault(t, f'${len(seen)}'))
        else:
            out.append(t)
    return ' '.join(out)


KEPT = set('if else match while for in loop return let mut as true false self break'.split())


def do_shells():
    """`if is_sound..(..) { .. } else { refused with BadState }`."""
    return [f.place for f in functions() if re.search(r'if is_sound(_lent)?\(', f.body)]


def do_walks():
    """Loops along a chain of entries: the next place is the link of this one."""
    return [f.place for f in functions() if re.search(r'\bat = (link_of|move_entry)\(|at = next;', f.body)]


def do_tables():
    """Loops over the buckets of a table, and over a cursor's buckets."""
    return [f.place for f in functions() if re.search(r'(while|for|loop)[^{]*\{[^}]*(buckets|larger|bucket_head)[\[(]', f.body)]


def do_twins():
    """Groups of functions whose bodies have one skeleton: they differ in names, types, constants or buffers alone."""
    groups = defaultdict(list)
    for f in functions():
        if len(TOKEN.findall(f.body)) >= 12:
            groups[skeleton(f.body)].append(f)
    return [f'{len(g)}: ' + ', '.join(f.place for f in g) for g in groups.values() if len(g) > 1]


def do_near():
    """Groups of functions of four lines or more whose bodies are alike in nineteen tokens of twenty, names and numbers aside."""
    import difflib
    big = [(f, [t if t in KEPT or not re.match(r"[\w'\"]", t) else 'x' for t in TOKEN.findall(f.body)])
           for f in functions() if len(f.body.splitlines()) >= 4]
    group = {f.place: {f.place} for f, _ in big}
    for (f, a), (g, b) in combinations(big, 2):
        s = difflib.SequenceMatcher(None, a, b, autojunk=False)
        if group[f.place] is not group[g.place] and s.real_quick_ratio() > 0.95 and s.quick_ratio() > 0.95 and s.ratio() > 0.95:
            both = group[f.place] | group[g.place]
            for place in both:
                group[place] = both
    groups = {id(g): g for g in group.values() if len(g) > 1}
    return sorted(f'{len(g)}: ' + ', '.join(sorted(g)) for g in groups.values())


def do_orients():
    """`if s.second_is_current { f(second, first ..) } else { f(first, second ..) }`."""
    return [f.place for f in functions() if re.search(r'if s\.second_is_current \{', f.body)]


def do_chooses():
    """Functions that are one `if` between two short answers."""
    one = re.compile(r'^if [^{]+\{\s*[^{};]+\s*\} else \{\s*[^{};]+\s*\}$')
    return [f'{f.place}: {" ".join(f.body.split())}' for f in functions() if one.match(f.body) and len(f.body.split()) <= 16]


def do_names():
    """Functions of one name in several files."""
    by = defaultdict(list)
    for f in functions():
        by[f.name].append(f.file)
    return [f'{n}: {", ".join(p)}' for n, p in sorted(by.items()) if len(p) > 1 and n != 'main']


# 3

def do_loops():
    pat = re.compile(r'^\s*(while|loop|for)\b[^\n]*\{$', re.M)
    return [f'{f.place}: {m[0].strip()}' for f in functions() for m in pat.finditer(f.body)]


def do_counted():
    """Loops in which a number goes up or down by a step of one, or a `for` over a range that only indexes."""
    return [line for line in do_loops() if not line.endswith('loop {') and counts(line)]


def counts(line):
    file_name, head = line.rsplit(': ', 1)
    f = next(g for g in functions() if g.place == file_name)
    inside = f.body[f.body.index(head):]
    inside = inside[:closing(inside, inside.index('{'), '{', '}') + 1]
    return bool(re.search(r'(\+|-)= [12]\b|wrapping_add_\w+\(\w+, 1\)', inside)) or head.startswith('for ')


# 4

def do_byhand():
    """Conversions, least, none below 0, powers of two, byte order, places and changed copies by hand: one line for each kind in a
    function."""
    pats = {
        'flag to number': r'\{ 1 \} else \{ [02] \}',
        'number to flag': r'current: n\[0\] == 1,|\w+ == 1\)|n\[0\] <= 1',
        'letter to enum': r'match letter \{',
        'enum to number': r'Error::BadState => 1',
        'least': r'if (\w+) < (\w+) \{\s*(?:\1|\2)\s*\} else \{\s*(?:\1|\2)\s*\}',
        'none below 0': r'if \w+ < \w+ \{ \w+ - \w+ \} else \{ 0 \}',
        'power of two': r'count_ones|& below\) == 0|size \*= 2',
        'byte order': r'256 \+|\* 256\b|/ 256\b|% 256\b',
        'get or 0': r'if \w+ < \w+\.len\(\) \{ \w+\[\w+\] \} else \{ 0 \}',
        'cut to 32 bits': r'TWO_TO_32|4294967295',
        'changed copy': r'let mut (\w+) = (?:s|f|before|empty_state\(0, 0, 0\)|fill_plan\(task\));(?=(?:.|\n)*\b\1\.\w+ = )|step: p\.step',
        'state by fields': r'State \{(?=\s*second_is_current)',
        'wrapping': r'wrapping_\w+(?=\()',
        'bytes by hand': r"b'0' \+|\(b - b'0'\)|b\"10",
        'empty': r'len\(\) == 0',
        'same variant': r'::At\(m\) => m == n',
    }
    return [f'{f.place}: {kind}: {" ".join(m[0].split())}' for f in functions() for kind, p in pats.items()
            for m in [re.search(p, f.body)] if m]


def do_flags():
    """Functions that join flags by `&` and `|`, or by an `else { false }`, where `&&` and `||` would do (masks are among them)."""
    pat = re.compile(r'(?:\) [&|] [(a-z!]|[a-z] [&|] (?:\(|\w+ [&|] |same|is_crowded|held\b))(?!\w*\d)|\} else \{\s*false\s*\}$'
                     r'|\n\s*& [a-z(]')
    return [f.place for f in functions() if pat.search(f.body)]


def do_derives():
    """Types with Clone and Copy alone."""
    return [f'{file}: {m[2]}' for file, text in files()
            for m in re.finditer(r'#\[derive\(Clone, Copy\)\]\n(?:pub(?:\([a-z]+\))? )?(enum|struct) (\w+)', no_comments(text))]


# 5

def norm(text):
    return re.sub(r'\.(now|old|new)\b(?!_)', '', text)


def conjuncts(text):
    parts = re.split(r' × ', text)
    return [re.sub(r'^\((.*)\)$', r'\1', p.strip()) for p in parts]


def do_facts():
    """Facts that three or more functions require, with the number of functions. A fact's arguments count, its .old and .now do not."""
    by = defaultdict(set)
    for f in functions():
        for kind, text in f.clauses:
            if kind == 'requires':
                for c in conjuncts(norm(text)):
                    by[c].add(f.place)
    return [f'{len(p)}: {c}' for c, p in sorted(by.items(), key=lambda x: -len(x[1])) if len(p) >= 3]


def do_heads():
    """The same by the fact's first word alone (Sound, Readable, sound_lent ..): how many functions require it."""
    by = defaultdict(set)
    for f in functions():
        for kind, text in f.clauses:
            if kind == 'requires':
                for c in conjuncts(norm(text)):
                    w = re.match(r'\w+', c)
                    if w and len(w[0]) > 2:
                        by[w[0]].add(f.place)
    return [f'{len(p)}: {w}' for w, p in sorted(by.items(), key=lambda x: -len(x[1])) if len(p) >= 3]


def do_promised():
    """Facts that three or more functions ensure."""
    by = defaultdict(set)
    for f in functions():
        for kind, text in f.clauses:
            if kind == 'ensures':
                for c in conjuncts(norm(text)):
                    by[c].add(f.place)
    return [f'{len(p)}: {c}' for c, p in sorted(by.items(), key=lambda x: -len(x[1])) if len(p) >= 3]


def do_together():
    """The largest sets of three or more parameters (name and type, without & and mut) that three or more functions all take."""
    takes = {}
    for f in functions():
        s = frozenset((n, re.sub(r"&('\w+ )?(mut )?", '', t)) for n, t in f.params)
        if len(s) >= 3:
            takes[f.place] = s
    shared = {a & b for a, b in combinations(takes.values(), 2) if len(a & b) >= 3} | set(takes.values())
    out = []
    for s in shared:
        n = sum(s <= t for t in takes.values())
        if n >= 3:
            out.append((n, s))
    out.sort(key=lambda x: (-x[0], -len(x[1])))
    return [f'{n}: ' + ', '.join(sorted(f'{a}: {b}' for a, b in s)) for n, s in out]


def do_long():
    """Functions with eight parameters or more."""
    return [f'{f.place}: {len(f.params)}' for f in functions() if len(f.params) >= 8]


# 6

def do_lengths():
    """A slice and a number of how much of it is meant, side by side."""
    word = {'size', 'capacity', 'count', 'filled', 'length', 'used', 'small', 'large', 'from', 'at', 'limit'}
    return [f'{f.place}: {", ".join(n for n, t in f.params if n in word or "[" in t)}' for f in functions()
            if any('[' in t for _, t in f.params) and any(n in word and '[' not in t for n, t in f.params)]


def do_entries():
    """Functions that take entries as numbers: an arena whose links are indices."""
    return [f.place for f in functions() if any(n == 'entries' and t in ('&[u32]', '&mut [u32]') for n, t in f.params)]


# 7

def do_ways():
    """A match of an own enum, at the end of a function, whose arms each run a step (call a function)."""
    mine = {n for _, n, v in enums()}
    out = []
    for f in functions():
        for m in re.finditer(r'^\s*match (\w+) \{', f.body, re.M):
            arms = f.body[m.end():closing(f.body, m.end() - 1, '{', '}')]
            kinds = set(re.findall(r'\b(\w+)::\w+(?:\([^)]*\)|\s*\{[^}]*\})? =>', arms)) & mine
            calls = re.findall(r'=> (?:\{\s*)?(?:after\.\w+ = )?[a-z]\w*\(', arms)
            if kinds and len(calls) >= 2:
                out.append(f'{f.place}: {", ".join(sorted(kinds))}: {len(calls)} arms that call')
    return out


def do_callers():
    """Uses of a variant of an enum of ways as an argument: the way is chosen here and run elsewhere."""
    pat = re.compile(r'\b(Purpose|Change|Read|Write|Listing|Build|Use|Work)::\w+(?:\([^()]*\))?')
    return [f'{f.place}: {m[0]}' for f in functions() for m in pat.finditer(f.body) if '=>' not in f.body[m.end():m.end() + 4]]


# 8

def answers():
    for path in sorted(glob.glob('crates/*/proofs/*/**/*.antt', recursive=True)):
        yield path, open(path, encoding='utf-8').read()


def do_answers():
    """Answers and invariants of the proofs, by crate."""
    by = defaultdict(int)
    for path, text in answers():
        by[path.split('/')[1]] += len(re.findall(r'^(?:abbrev )?(?:pub )?[\w.-]+ : goal\.', text, re.M))
    return [f'{c}: {n}' for c, n in by.items()]


def do_alike():
    """Right sides that five or more answers give, word for word."""
    by = defaultdict(list)
    for path, text in answers():
        for m in re.finditer(r'^([\w.-]+) c[^=\n]*= (\S[^\n]*(?:\n    [^\n]+)*)', text, re.M):
            by[' '.join(m[2].split())].append(path.split('/')[1])
    return [f'{len(p)}: {r}' for r, p in sorted(by.items(), key=lambda x: -len(x[1])) if len(p) >= 5]


def main():
    found = globals()['do_' + sys.argv[1]]()
    if '-q' not in sys.argv:
        print('\n'.join(found))
    print(len(found))


main()
