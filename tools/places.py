#!/usr/bin/env python3
"""The places of each point of docs/DESIGN-PASS.md in the sources: tools/places.py [--list POINT] FOLDER, where FOLDER has crates/."""
import re, sys, glob, os

def sources(root):
    for path in sorted(glob.glob(os.path.join(root, 'crates/*/src/**/*.rt'), recursive=True)):
        yield os.path.relpath(path, os.path.join(root, 'crates')), open(path).read()

def functions(text):
    """Name, parameters, clauses and body of each function."""
    for m in re.finditer(r'^( *)(?:pub(?:\([a-z]+\))? )?(?:extern "C" )?fn (\w+)', text, re.M):
        indent, start = m.group(1), m.end()
        end = text.find('\n' + indent + '}\n', start)
        end = len(text) if end < 0 else end
        depth, i = 0, text.index('(', start)
        j = i
        while True:
            depth += {'(': 1, ')': -1}.get(text[j], 0)
            j += 1
            if depth == 0:
                break
        yield m.group(2), text[i + 1:j - 1], text[j:end]

def parameters(text):
    depth, n, some = 0, 0, False
    for c in text:
        depth += c in '(<[{'
        depth -= c in ')>]}'
        some |= not c.isspace()
        n += c == ',' and depth == 0
    return 0 if not some else n + (not text.rstrip().endswith(','))

def code(text):
    return '\n'.join(l for l in text.split('\n') if not l.strip().startswith(('//', 'ghost ', 'requires', 'ensures')))

def enums(root):
    """1: enums of two variants of which one has nothing in it, or a refusal; structs of a flag and a value; numbers that stand for kinds."""
    for path, text in sources(root):
        for m in re.finditer(r'enum (\w+) \{\n(.*?)\n\}', text, re.S):
            variants = re.findall(r'^    (\w+)', m.group(2), re.M)
            if len(variants) == 2 and ('Refused' in variants or re.search(r'^    \w+,$', m.group(2), re.M)) and m.group(1) not in ('Heads', 'Place'):
                yield path, 'enum ' + m.group(1)
        for m in re.finditer(r'struct (\w+) \{([^}]*)\}', text):
            if re.search(r': bool', m.group(2)):
                yield path, 'struct ' + m.group(1)
        for m in re.finditer(r'^(?:pub )?const (\w+): u(?:8|64) = \d+;', text, re.M):
            if not re.search(r'LISTED|ROWS|MOST|LONGEST', m.group(1)):
                yield path, 'const ' + m.group(1)
        for name, params, rest in functions(text):
            if re.search(r'-> bool', rest.split('{')[0]) and '&mut' in params:
                yield path, 'fn ' + name + ': a flag beside what is written'
            if re.search(r'== 18\b', rest):
                yield path, 'fn ' + name + ': a refusal by its number'
            if name == 'fill' and re.search(r'let mut line = 0', rest):
                yield path, 'fn ' + name + ': 0 for no line'

def twins(root):
    """2: functions whose bodies are the same but for types, sizes and names of their own."""
    seen = {}
    for path, text in sources(root):
        for name, params, rest in functions(text):
            body = code(rest[rest.find('{\n'):])
            shape = re.sub(r'\b(u8|u16|u32|u64|i32|i64|usize)\b', 'T', body)
            shape = re.sub(r'\d+', 'N', shape)
            own = {}
            shape = re.sub(r'[a-z_]\w*', lambda m: m.group(0) if m.group(0) in KEEP else own.setdefault(m.group(0), 'x%d' % len(own)), shape)
            shape = re.sub(r'\s+', ' ', shape)
            if len(shape) > 40:
                seen.setdefault((shape, parameters(params)), []).append((path, name))
    for group in seen.values():
        if len(group) > 1:
            for path, name in group:
                yield path, 'fn ' + name + ' (' + ', '.join(n for _, n in group) + ')'

KEEP = set('if else while for in let mut return match true false as self len'.split())

def loops(root):
    """3: loops by `while`."""
    for path, text in sources(root):
        for name, params, rest in functions(text):
            for m in re.finditer(r'\bwhile ([^{]*)\{', rest):
                yield path, 'fn ' + name + ': while ' + m.group(1).strip()

def conversions(root):
    """4: equality, order, copying, conversion and printing by hand."""
    names = r'(wide\w*|signed|unsigned|bits|low|absolute|same|greater|lesser|min|max|place|number|line|is_digit|capped|change_of|class_of|column|quotient|last_round|in_force|shift_at)'
    for path, text in sources(root):
        for name, params, rest in functions(text):
            body = code(rest)
            if re.fullmatch(names, name) and len(body) < 900 and parameters(params) <= 3 and 'vazhdumir' not in path:
                yield path, 'fn ' + name

def travelling(root):
    """5: functions of more than six parameters; clauses on the length of an array."""
    for path, text in sources(root):
        for name, params, rest in functions(text):
            if parameters(params) > 6:
                yield path, 'fn %s: %d parameters' % (name, parameters(params))
            for m in re.finditer(r'length [\w.]+\.(?:old|new|now) ≡ \d+|length (?:state|result)\.\w+ ≡ \d+', rest):
                yield path, 'fn ' + name + ': ' + m.group(0)

def parallel(root):
    """6: parallel arrays, and a buffer with a length or a top beside it, as parameters or locals."""
    for path, text in sources(root):
        for name, params, rest in functions(text):
            words = re.findall(r'(\w+):', params)
            for a, b in (('kinds', 'numbers'), ('outkinds', 'outnumbers'), ('lentkinds', 'lentnumbers'), ('words', 'arguments'), ('stack', 'top'),
                         ('frame', 'top'), ('offsets', 'top'), ('values', 'top'), ('counters', 'top'), ('types', 'len'), ('references', 'len'),
                         ('cells', 'values'), ('forms', 'constants'), ('rows', 'done')):
                if a in words and b in words:
                    yield path, 'fn %s: %s, %s' % (name, a, b)

def steps(root):
    """7: a number that says which step is done, and tables of functions."""
    for path, text in sources(root):
        for m in re.finditer(r'\[fn\(|: fn\(', text):
            yield path, 'a table of functions'
        for name, params, rest in functions(text):
            if re.search(r'\b(step|mode|phase|which): (u8|u32|usize)', params):
                yield path, 'fn ' + name

def answers(root):
    """8: answers of proofs, each a goal that the check was told how to prove."""
    for path in sorted(glob.glob(os.path.join(root, 'crates/*/proofs/**/Answers.antt'), recursive=True)):
        for m in re.finditer(r'^pub ([\w+\'-]+) : goal\.', open(path).read(), re.M):
            yield os.path.relpath(path, os.path.join(root, 'crates')), m.group(1)

POINTS = [enums, twins, loops, conversions, travelling, parallel, steps, answers]

def main():
    arguments = sys.argv[1:]
    listed = None
    if arguments[:1] == ['--list']:
        listed = int(arguments[1])
        arguments = arguments[2:]
    root = arguments[0]
    for number, point in enumerate(POINTS, 1):
        places = list(point(root))
        if listed == number:
            for path, what in places:
                print(path, what)
        elif listed is None:
            print(number, len(places), point.__doc__)

main()
