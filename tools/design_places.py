#!/usr/bin/env python3
"""Finds the places in crates/*/src where a plainer form may serve, by seven points, and counts them.

Run at the top of the repository:
    python3 tools/design_places.py            every place, below the check that finds it, and the counts
    python3 tools/design_places.py --counts   the counts alone
    python3 tools/design_places.py --crates   the counts of each crate
    python3 tools/design_places.py --proofs   files and lines of proofs of each crate
A place is printed as `crate/file:line  text`. In a point's count each function, struct, enum or constant
counts once, however many checks and lines find it. A check reads the text alone: it finds places to look
at, and some of them are right as they are.
"""
import difflib
import glob
import re
import sys
from collections import defaultdict

POINTS = {
    1: 'own enums, flags and numbers where Option, Result and ? serve',
    2: 'twins that differ in a type, a size or a constant',
    3: 'loops that count or search by hand',
    4: 'equality, conversion and printing by hand',
    5: 'facts and parameters that travel together',
    6: 'buffers with a length beside, parallel arrays, indices as handles',
    7: 'switches on which step to run',
}


class Item:
    """A function, struct or enum: its head (signature and clauses), its body, and where it stands."""

    def __init__(self, path, kind, name, start, lines, owner):
        self.path, self.kind, self.name, self.start, self.lines, self.owner = path, kind, name, start, lines, owner
        self.head, self.body, self.body_at = self.split()

    def split(self):
        indent = re.match(r' *', self.lines[0]).group()
        if self.kind != 'fn':
            return self.lines[:1], self.lines[1:], self.start + 1
        for k, line in enumerate(self.lines):
            signature = line.lstrip().startswith(('fn', 'pub', ')'))
            if line in (indent + '{', indent + '{}') or (line.endswith(' {') and signature):
                at = k + 1
                head = self.lines[:at] if line.endswith(' {') else self.lines[:k]
                return head, self.lines[at:-1], self.start + at
        return self.lines, [], self.start + len(self.lines)

    def signature(self):
        text = []
        for line in self.head:
            if line.strip().startswith(('requires', 'ensures')):
                break
            text.append(line.strip())
        return ' '.join(text)

    def parameters(self):
        inside = re.search(r'\((.*)\)', self.signature().split('->')[0])
        one = r'(?:mut )?(\w+): ((?:[^,<(\[]|<[^>]*>|\([^)]*\)|\[[^\]]*\])+)'
        found = re.findall(one, inside.group(1) if inside else '')
        return [(name, re.sub(r"'\w+ ", '', kind.strip())) for name, kind in found]

    def result(self):
        parts = self.signature().split('->')
        return parts[1].rstrip(' {;').strip() if len(parts) > 1 else ''

    def requires(self):
        return [(self.start + k, m.group(1)) for k, line in enumerate(self.head)
                for m in [re.match(r'\s*requires(?: \w+)? \{ (.*) \};?$', line)] if m]

    def text(self):
        return '\n'.join(self.body)


def read_items(path):
    with open(path, encoding='utf-8') as file:
        lines = file.read().split('\n')
    items, owner = [], ''
    for k, line in enumerate(lines):
        block = re.match(r'(?:impl|pub trait)(?:<.*?>)? ?(.*?) \{', line)
        if block:
            owner = block.group(1)
        elif line == '}':
            owner = ''
        found = re.match(r'( *)(?:pub(?:\(\w+\))? )?(fn|struct|enum) (\w+)', line)
        if not found:
            continue
        indent, kind, name = found.groups()
        end, opened = k, False
        while end < len(lines):
            text = lines[end]
            signature = text.lstrip().startswith(('fn', 'pub', ')'))
            opened = opened or text == indent + '{' or (text.endswith(' {') and signature)
            if text in (indent + '}', indent + '{}') or (text.endswith(';') and not opened):
                break
            end += 1
        items.append(Item(path, kind, name, k + 1, lines[k:end + 1], owner if indent else ''))
    return lines, items


FILES = {}
for path in sorted(glob.glob('crates/*/src/**/*.rt', recursive=True)):
    FILES[path] = read_items(path)
ITEMS = [item for _, items in FILES.values() for item in items]
FNS = [item for item in ITEMS if item.kind == 'fn']
CHECKS = []


def check(point, title):
    def keep(function):
        CHECKS.append((point, title, function))
        return function
    return keep


def place(path, line, text=''):
    return path, line, text.strip() or FILES[path][0][line - 1].strip()


def item_at(path, line):
    """The first line of the item in which a line stands; the line itself outside of any."""
    for item in FILES[path][1]:
        if item.start <= line < item.start + len(item.lines):
            return path, item.start
    return path, line


def is_law(fn):
    return fn.lines[-1].strip() in ('{}', '}') and not fn.body


def lines_that(pattern):
    for path, (lines, _) in FILES.items():
        for k, line in enumerate(lines):
            if re.search(pattern, line) and not line.strip().startswith('//'):
                yield place(path, k + 1)


def bodies_that(pattern, fns=None):
    """Each match of a pattern over the lines of a body, at the line where its first group begins."""
    for fn in FNS if fns is None else fns:
        body = fn.text()
        for m in re.finditer(pattern, body):
            yield place(fn.path, fn.body_at + body.count('\n', 0, m.start(1)))


def commented(pattern):
    """The functions whose comment says so."""
    for fn in FNS:
        k = fn.start - 2
        while k >= 0 and FILES[fn.path][0][k].strip().startswith('//'):
            if re.search(pattern, FILES[fn.path][0][k]):
                yield place(fn.path, fn.start)
            k -= 1


def heads_that(test):
    for fn in FNS:
        if test(fn):
            yield place(fn.path, fn.start)


# Point 1

@check(1, 'an own enum with a variant Refused, Wrong, Fault, NoMemory, Absent or Silent')
def own_enums():
    names = re.compile(r'\b(Refused|Wrong|Fault|NoMemory|Absent|Silent)\b(?=\(|,)')
    for item in ITEMS:
        if item.kind == 'enum' and any(names.match(line.strip()) for line in item.body):
            yield place(item.path, item.start)


@check(1, 'a function that changes what it is lent and answers bool')
def effects_by_bool():
    return heads_that(lambda f: f.result() == 'bool' and '&mut' in f.signature())


@check(1, 'a number, 0, for a law')
def laws_by_number():
    return heads_that(lambda f: f.result() == 'u8' and f.text().strip() == '0')


@check(1, 'a number for a kind')
def kind_constants():
    return lines_that(r'^const \w+: u8 =')


@check(1, 'let .. else { return None, Err or false } where ? serves')
def let_else():
    return bodies_that(r'(let (?:Some|Ok)\([^=]*\)\s*=[^;{}]*else \{\s*return '
                       r'(?:None|Ok\(None\)|Err\([^;]*\)|Ok\(Err\([^;]*\)\)|false);)')


@check(1, 'a match that hands an error or None on')
def handed_on():
    arm = re.compile(r'^\s*(None => (?:None|false|0|Ok\(None\))|Some\((\w+)\) => \2'
                     r'|Err\(\w+\) => \(?(?:\w+, )?(?:Ok\()?Err\(.*),$')
    for fn in FNS:
        for k, line in enumerate(fn.body):
            if arm.match(line):
                yield place(fn.path, fn.body_at + k)


@check(1, 'an error turned by hand: if let Err, is_none, is_err and then return')
def error_by_hand():
    return bodies_that(r'(if let Err\(\w+\) = |if [^\n]*\.is_(?:none|err)\(\)[^\n]*\{\s*return)')


@check(1, 'if .. { Some(..) } else { None }')
def some_or_none():
    return bodies_that(r'(\} else \{\s*None\s*\}\s*$)')


@check(1, 'a fault told as Some, or an answer that is Refused, Wrong or Fault returned by hand')
def faults_by_hand():
    yield from heads_that(lambda f: f.result() == 'Option<Fault>')
    answers = [fn for fn in FNS if 'Result<' not in fn.result()]
    yield from bodies_that(r'((?:return|=>|=) \(?(?:\w+, )?(?:\w+::)+(?:Refused|Wrong|Fault)\b(?!::))', answers)


@check(1, 'a value taken and handed back beside the answer')
def handed_back():
    return heads_that(lambda f: re.search(r'\(\s*(?:mut )?self\b', f.signature())
                      and re.match(r'\((?:\w+<\w+>|Self),|Chest<T>$', f.result()))


@check(1, 'None or a bool answered by hand in place of map, is_some_and or ?')
def option_by_hand():
    return bodies_that(r'(None => (?:Ok\(\(\)\)|return Ok\(\(\)\)|self\.\w+|\w+::\w+)[,{]|\.is_some\(\) && !)')


@check(1, 'a Result within a Result')
def nested():
    return heads_that(lambda f: 'Result<Result<' in f.result())


@check(1, 'a number, zeros or no bytes that stand for none, as the comment says')
def numbers_for_none():
    return commented(r'0 if there is none|zeros where there is no|no bytes if there is none|None, if they'
                     r'|0, the house|0 being the house|stays too high|stay too many')


@check(1, 'a flag beside a value')
def flags():
    for item in ITEMS:
        if item.kind in ('struct', 'enum'):
            for k, line in enumerate(item.body):
                if re.search(r'\w+: bool\b', line):
                    yield place(item.path, item.body_at + k)


# Point 2

NEUTRAL = set('let mut if else match for in while return self as Ok Err Some None'.split())


def shape(text, types=True):
    """A text without its comments, numbers, literals, types and names: what is left is its form."""
    text = re.sub(r'//[^\n]*', '', text)
    text = re.sub(r'b?"[^"]*"|b?\'.\'', 'S', text)
    text = re.sub(r'\b\d[\w]*\b', 'N', text)
    seen, out = {}, []
    for token in re.findall(r'\w+|[^\w\s]', text):
        if token in NEUTRAL:
            out.append(token)
        elif re.match(r'[A-Z]', token):
            out.append('T' if types else token)
        elif re.match(r'[ui](8|16|32|64|128|size)$', token):
            out.append('P')
        elif re.match(r'[a-z_]', token):
            out.append('v%d' % seen.setdefault(token, len(seen)))
        else:
            out.append(token)
    return ' '.join(out).replace(', )', ' )').replace(', }', ' }').replace(', ]', ' ]')


def groups(items, key, least=2):
    by = defaultdict(list)
    for item in items:
        k = key(item)
        if k is not None:
            by[k].append(item)
    return [group for group in by.values() if len(group) >= least]


def report(found):
    for group in found:
        names = ', '.join('%s/%s' % (i.path.split('/')[1], i.name) for i in group)
        for item in group:
            yield place(item.path, item.start, '%s   [%s]' % (FILES[item.path][0][item.start - 1].strip(), names))


def whole(fn):
    text = shape('\n'.join(fn.body))
    return text if len(text.split()) >= 14 else None


@check(2, 'functions with the same body but for names, types and numbers')
def same_bodies():
    return report(groups(FNS, whole))


def fellows(pairs):
    """One line for each item of some pairs, with all that it is paired with."""
    by = defaultdict(list)
    for one, other in pairs:
        by[one].append(other)
        by[other].append(one)
    for item, others in by.items():
        names = ', '.join(sorted('%s/%s' % (o.path.split('/')[1], o.name) for o in others))
        yield place(item.path, item.start, '%s   [as %s]' % (FILES[item.path][0][item.start - 1].strip(), names))


@check(2, 'functions with nearly the same body')
def near_bodies():
    bodies = [(fn, shape('\n'.join(fn.body)).split()) for fn in FNS if fn.name != 'main']
    bodies = [(fn, tokens) for fn, tokens in bodies if len(tokens) >= 30]
    pairs = []
    for k, (fn, tokens) in enumerate(bodies):
        match = difflib.SequenceMatcher(None, b=tokens, autojunk=False)
        for other, more in bodies[k + 1:]:
            if 0.7 < len(tokens) / len(more) < 1.4:
                match.set_seq1(more)
                if match.real_quick_ratio() > 0.85 and match.quick_ratio() > 0.85 and match.ratio() > 0.85:
                    pairs.append((fn, other))
    return fellows(pairs)


@check(2, 'structs that share three fields, or all fields of the smaller')
def shared_fields():
    structs = [(item, set(re.findall(r'(\w+): [^{]', item.text()))) for item in ITEMS if item.kind == 'struct']
    pairs = []
    for k, (item, fields) in enumerate(structs):
        for other, more in structs[k + 1:]:
            both = len(fields & more)
            if both >= 3 or 2 <= both == min(len(fields), len(more)):
                pairs.append((item, other))
    return fellows(pairs)


@check(2, 'small functions with the same body and the same kinds of parameters')
def same_small_bodies():
    def key(fn):
        text = shape('\n'.join(fn.body))
        if not 5 <= len(text.split()) < 14 or fn.owner.count(' for '):
            return None
        return text, shape(' '.join(kind for _, kind in fn.parameters())), shape(fn.result())
    return report(g for g in groups(FNS, key) if len({i.path.split('/')[1] for i in g}) < 5)


@check(2, 'functions whose names differ by a number, a type or a kind alone')
def same_names():
    kinds = r'(ticket|letter|login|asking|receipt|refusal|house|service|reader|u8|u16|u32|u64|u128|\d+)'

    def key(fn):
        name = re.sub(kinds, '#', fn.name)
        return (fn.path.split('/')[1], fn.owner, name) if '#' in name and name.strip('#_') else None
    return report(groups([fn for fn in FNS if not is_law(fn)], key))


@check(2, 'a name that stands in more than one crate with the same signature')
def same_in_crates():
    def key(fn):
        if fn.owner or is_law(fn) or fn.name in ('main', 'run'):
            return None
        return fn.name, shape(fn.signature())
    return report(g for g in groups(FNS, key) if len({i.path for i in g}) > 1)


@check(2, 'structs and enums with the same fields or variants')
def same_types():
    def key(item):
        fields = re.findall(r'^\s*(?:pub(?:\(\w+\))? )?(\w+)(?:: .*|\(.*\)|),$', item.text(), re.M)
        return (item.kind, tuple(fields)) if len(fields) > 1 else None
    return report(groups([i for i in ITEMS if i.kind != 'fn'], key))


@check(2, 'a constant that stands in more than one place')
def same_constants():
    by = defaultdict(list)
    for path, (lines, _) in FILES.items():
        for k, line in enumerate(lines):
            m = re.match(r'(?:pub(?:\(\w+\))? )?const (\w+): \w+ = (.*);$', line)
            if m:
                by[m.groups()].append((path, k + 1))
    return [place(*where) for wheres in by.values() if len(wheres) > 1 for where in wheres]


# Point 3

@check(3, 'for over a range of numbers')
def ranges():
    return lines_that(r'\bfor \w+ in .*\.\.')


@check(3, 'while')
def whiles():
    return lines_that(r'^\s*while ')


@check(3, 'a count kept beside a loop')
def counted():
    return bodies_that(r'(let mut \w+ = (?:0\w*|\w+\.len\(\)|from|false|text|after|out\.as_slice\(\));)'
                       r'(?=[\s\S]*\b(?:for|while)\b)')


@check(3, 'a search that is position, find, any or all')
def searches():
    return bodies_that(r'(for [^\n]* in [^\n]*\{\s*if [^{]*\{\s*(?:return|\w+ = true;))')


@check(3, 'a loop that only pushes, adds or takes the highest')
def folds():
    return bodies_that(r'(for [^\n]* in [^\n]*\{\s*'
                       r'(?:\w+ = \w+\.max|if [^{]*\{\s*\w+ \+= 1;|\w+(?:\.\w+)?\(?[^\n]*\?;\s*\}))')


@check(3, 'a row of calls that differ by an index')
def unrolled():
    for fn in FNS:
        last, row = None, 0
        for k, line in enumerate(fn.body):
            now = shape(line)
            call = re.search(r'\d', line) and re.match(r'\s*(?:let \w+ = )?\w+\(', line)
            row = row + 1 if now == last and call else 0
            if row == 2:
                yield place(fn.path, fn.body_at + k - 2)
            last = now


# Point 4

@check(4, 'equality by a function')
def equality():
    tests = [fn for fn in FNS if fn.result() == 'bool' and len(fn.body) == 1]
    return bodies_that(r'^(\s*[\w.]+ == [\w.]+(?:\(\w+\))?)\s*$', tests)


@check(4, 'a call of same(..)')
def same_calls():
    return lines_that(r'[\w.]\.same\(|\bsame\(word')


@check(4, 'a match between an enum and numbers, texts or another enum')
def conversions():
    arm = re.compile(r'^\s*(?:[\w:]+(?:\((?:_|\w+)\))?(?: \{ \.\. \})?|\d+|\[\d\]|b?\'.\'|_) => '
                     r'(?:\d+|b?"[^"]*"|(?:Some\()?\w+::\w+(?:\([^)]*\))?\)?|None|true|false),$')
    for fn in FNS:
        arms = [k for k, line in enumerate(fn.body) if arm.match(line)]
        if len(arms) >= 2 and len(arms) >= 0.6 * sum('=>' in line for line in fn.body):
            yield place(fn.path, fn.start)


@check(4, 'a value told as text by a function')
def printing():
    def tells(fn):
        into = fn.result() == 'Result<(), AllocError>' and fn.parameters()[:1] == [('out', '&mut Text')]
        return not fn.owner and (into or 'String' in fn.result() or fn.result() == "&'static str")
    return heads_that(tells)


@check(4, 'equality, order, conversion or printing in an impl')
def impls():
    traits = 'PartialEq|Eq|Ord|PartialOrd|Clone|Default|From|TryFrom|(?:fmt::)?Display'
    return lines_that(r'^impl.* (?:%s)(?:<.*>)? for ' % traits)


@check(4, 'bytes made or read by a function that a method of the number is')
def number_bytes():
    return lines_that(r'(?:to|from)_(?:be|le)_bytes|/ 256|% 256|\* 256')


@check(4, 'a value copied field by field')
def copied():
    return bodies_that(r'((?:\b\w+: (\w+)\.\w+,\s*)(?:\w+: [^\n]*\2\.\w+\)?,\s*){2,})')


# Point 5

@check(5, 'the same requires in three functions or more')
def same_requires():
    by = defaultdict(list)
    for fn in FNS:
        for line, clause in fn.requires():
            for part in re.split(r' × ', clause):
                part = re.sub(r'\b\d+\b', 'N', part.strip('() '))
                names = dict(fn.parameters())
                form = re.sub(r'\b[a-z]\w*\b', lambda m: 'x' if m.group() in names else m.group(), part)
                by[form].append((fn.path, line, form))
    for form, wheres in sorted(by.items()):
        if len(wheres) >= 3:
            for path, line, _ in wheres:
                yield place(path, line, '%s   [%s, %d times]' % (FILES[path][0][line - 1].strip(), form, len(wheres)))


@check(5, 'parameters that stand together in three functions or more')
def same_parameters():
    by = defaultdict(list)
    for fn in FNS:
        row = [] if ' for ' in fn.owner else fn.parameters()
        for i in range(len(row)):
            for j in range(i + 2, len(row) + 1):
                by[tuple(row[i:j])].append(fn)
    runs = {run: fns for run, fns in by.items() if len(fns) >= 3}
    for run, fns in sorted(runs.items()):
        longer = [r for r, f in runs.items() if len(r) > len(run) and len(f) == len(fns)
                  and any(r[i:i + len(run)] == run for i in range(len(r)))]
        if not longer:
            for fn in fns:
                names = ', '.join('%s: %s' % one for one in run)
                yield place(fn.path, fn.start, '%s   [%s, %d times]' % (fn.lines[0].strip(), names, len(fns)))


@check(5, 'a ghost value made of several fields in three contracts or more')
def made_of_fields():
    by = defaultdict(list)
    part = r'(?:\w+(?:\.\w+)+|\([A-Z][\w.]* [\w.]+\))'
    for fn in FNS:
        for k, line in enumerate(fn.head):
            for m in re.finditer(r'\b([a-z]\w+)((?: %s){2,})' % part, line):
                form = '%s of %d' % (m.group(1), len(re.findall(part, m.group(2))))
                if m.group(1) not in ('bytes_eq', 'keeps', 'ours', 'result'):
                    by[form].append((fn, fn.start + k))
    for form, wheres in sorted(by.items()):
        if len({(fn.path, fn.start) for fn, _ in wheres}) >= 3:
            for fn, line in wheres:
                yield place(fn.path, line, '%s   [%s fields]' % (FILES[fn.path][0][line - 1].strip(), form))


@check(5, 'a length in a requires or ensures where an array type serves')
def lengths():
    return lines_that(r'requires.*\blength \w+\.(?:now|old) ≡ \d|requires.*≡ length \w+\.old')


# Point 6

@check(6, 'two slices or lists of one length')
def parallel():
    return lines_that(r'(?:requires|ghost \w+:).*(?:length|vec_len) \w+(?:\.\w+)? ≡ (?:length|vec_len) \w+')


@check(6, 'a length or a place beside bytes')
def lengths_beside():
    for item in ITEMS:
        if item.kind == 'struct':
            for k, line in enumerate(item.body):
                beside = re.search(r'\b(len|used|count|place|at): (usize|u16|u64)', line)
                if beside and re.search(r'bytes|key|which', item.text()):
                    yield place(item.path, item.body_at + k)


@check(6, 'an index as a handle')
def handles():
    def within(fn):
        parts = [part for _, clause in fn.requires() for part in clause.split(' × ')]
        return any(re.match(r'\(?\w+ < (?:vec_len|length)', part) for part in parts)
    return heads_that(lambda f: within(f) or f.result() == 'Option<usize>')


@check(6, 'a memory that is filled and its length told')
def filled():
    return heads_that(lambda f: f.result() in ('usize', 'Option<usize>') and '&mut' in f.signature())


@check(6, 'a front of an array up to a count')
def fronts():
    return lines_that(r'&(?:mut )?\w+\[0\.\.[a-z]\w*(?: \+ \d+)?\]')


@check(6, 'a list searched by number')
def searched_lists():
    return bodies_that(r'(if [\w.]+\.(?:number|id) == \w+ \{)')


# Point 7

def calls_of(arm):
    m = re.match(r'^\s*[^=]*=> (?:Some\(|Ok\()?(?:[\w:]+\()?(?:self\.)?(\w+)\((.*)\)*\??\)*,$', arm)
    return m and m.group(1)


@check(7, 'a match whose arms each call another function')
def switches():
    for fn in FNS:
        named = {calls_of(line) for line in fn.body} - {None, 'Some', 'Ok', 'Err', 'None'}
        if len(named) >= 3:
            yield place(fn.path, fn.start)


@check(7, 'a function that takes an enum and matches on it first')
def picks():
    for fn in FNS:
        first = fn.body[0].strip() if fn.body else ''
        m = re.match(r'match \*?(?:self\.)?(\w+)(?:\.\w+)? \{', first)
        calls = [line for line in fn.body if re.search(r'=> [^A-Z]*\b[a-z]\w*\(', line)]
        if m and len(calls) >= 2 and (m.group(1) in dict(fn.parameters()) or 'self' in first):
            yield place(fn.path, fn.start)


@check(7, 'a row of if same(..) for one of several')
def rows_of_ifs():
    return bodies_that(r'(if same\([^{]*\{\s*(?:return )?Some\([^;}]*;?\s*\}(?:\s*else)? if same\()')


def short(path):
    return path.replace('crates/', '', 1).replace('/src/', '/', 1)


def proofs():
    """Of each crate: files and lines of answers, of invariants of loops, and of lemmas."""
    totals = [0] * 6
    print('%-16s %s' % ('crate', 'answers: files, lines; invariants: files, lines; lemmas: files, lines'))
    for crate in sorted({path.split('/')[1] for path in FILES}):
        row = [0] * 6
        for path in glob.glob('crates/%s/proofs/**/*.antt' % crate, recursive=True):
            kind = {'Answers.antt': 0, 'Invariants.antt': 2}.get(path.split('/')[-1], 4)
            row[kind] += 1
            with open(path, encoding='utf-8') as file:
                row[kind + 1] += len(file.readlines())
        totals = [a + b for a, b in zip(totals, row)]
        print('%-16s %s' % (crate, ' '.join('%6d' % n for n in row)))
    print('%-16s %s' % ('in all', ' '.join('%6d' % n for n in totals)))


def main():
    told = sys.argv[1:]
    if '--proofs' in told:
        return proofs()
    totals, crates = {}, defaultdict(lambda: defaultdict(int))
    for point, title in POINTS.items():
        every = set()
        print('== %d. %s' % (point, title))
        for at, name, function in CHECKS:
            if at != point:
                continue
            found = sorted(set(function()))
            items = {item_at(path, line) for path, line, _ in found}
            every |= items
            print('-- %s: %d' % (name, len(items)))
            for path, line, text in [] if told else found:
                print('   %s:%d  %s' % (short(path), line, text))
        totals[point] = len(every)
        for path, _ in every:
            crates[path.split('/')[1]][point] += 1
    if '--crates' in told:
        print('== places of each crate, by point')
        for crate, row in sorted(crates.items()):
            print('%-16s %s' % (crate, ' '.join('%4d' % row[point] for point in POINTS)))
    print('== places found')
    for point, title in POINTS.items():
        print('%d. %s: %d' % (point, title, totals[point]))
    print('in all: %d' % sum(totals.values()))


if __name__ == '__main__':
    main()
