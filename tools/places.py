"""The places in src/ that docs/DESIGN-PASS.md counts, by point. Usage: tools/places.py [POINT] lists those of a point."""
import collections
import glob
import re
import sys

FN = re.compile(r'^(?:pub )?(?:const )?fn (\w+)[\s\S]*?^\}', re.M)


def sources():
    for path in sorted(glob.glob('crates/*/src/*.rt')):
        with open(path) as f:
            yield path, f.read()


def functions():
    for path, text in sources():
        for m in FN.finditer(text):
            yield path, text.count('\n', 0, m.start()) + 1, m.group(1), m.group(0)


def lines(pattern):
    rx = re.compile(pattern)
    for path, text in sources():
        for n, line in enumerate(text.split('\n'), 1):
            if rx.search(line) and not line.lstrip().startswith('//'):
                yield path, n, line.strip()


def body(fn):
    return fn[fn.index('\n{'):] if '\n{' in fn else fn


def head(fn):
    return fn[:fn.index('\n{')] if '\n{' in fn else fn.split('{')[0]


def options():
    """1a: variants for nothing in enums of the repository's own"""
    return lines(r'^No[A-Z]\w*,$|^\s+No[A-Z]\w*,$')


def flags():
    """1b: a flag or a count with a value beside it, in a struct"""
    return lines(r'^\s+pub (found|has|stores|known): (bool|u32|u64),')


def refusals():
    """1c: numbers for refusals: tests of a number that was found, and functions that give one"""
    yield from lines(r'\b(found|room|refusal)(\.found)? != 0|\.found != 0|outcome::refused\(')
    for path, n, name, fn in functions():
        if re.search(r'-> u32', head(fn)) and len(re.findall(r'return [1-8];', fn)) and name != 'operate':
            yield path, n, 'fn ' + name


def failures():
    """1d: functions whose `true` says that something did not fit"""
    for path, text in sources():
        for m in re.finditer(r'^((?://.*\n)+)(?:pub )?fn (\w+)', text, re.M):
            if re.search(r'True(,| if| with).*|True, with', m.group(1)):
                yield path, text.count('\n', 0, m.end()) + 1, 'fn ' + m.group(2)


def sentinels():
    """1e: a number that says none or which of three: 32, 256, the marks 0, 1, 2"""
    yield from lines(r'(== 32\b|256 <= i|== 2\b|found == [01]\b|=> 32,|return 2;)')


def twins():
    """2: functions of the same shape, names and numbers apart; each group but its first member"""
    groups = collections.defaultdict(list)
    for path, n, name, fn in functions():
        b = re.sub(r'//.*', '', fn)
        b = re.sub(r'^\s*(ensures|requires)\b.*$', '', b, flags=re.M)
        words = [w for w in re.findall(r'\w+|[^\s\w]', b)]
        keep = {'fn', 'pub', 'let', 'mut', 'if', 'else', 'while', 'for', 'in', 'return', 'match', 'as', 'true', 'false', 'self'}
        shape = ' '.join(w if w in keep or not re.match(r'\w', w) else '_' for w in words)
        if len(words) > 60:
            groups[shape].append((path, n, 'fn ' + name))
    for g in groups.values():
        yield from g[1:]


def loops():
    """3: loops that count by hand"""
    return lines(r'\bwhile\b|\bloop \{')


def tests():
    """4a: a truth value returned early, in place of and, or"""
    return lines(r'^return (true|false);|^\s+return (true|false);')


def arms():
    """4b: arms that say the same as the arm before"""
    for path, text in sources():
        before = None
        for n, line in enumerate(text.split('\n'), 1):
            m = re.match(r'\s+\w+::\w+(?:\([a-z_]+\))? => (.*)', line)
            value = m and re.sub(r'\w+::\w+(\(\w+\))?', 'same', m.group(1))
            if m and value == before:
                yield path, n, line.strip()
            before = value if m else None


def copies():
    """4c: a field copied into a local first"""
    return lines(r'^\s*let (\w+) = \w+\.\w+;$')


def lengths():
    """5a: clauses that say a length"""
    return lines(r'^\s*(requires|ensures)\b.*length \w+(\.(now|old|new))? ≡ \d+')


def facts():
    """5b: other clauses that stand, names of parameters apart, in three contracts or more"""
    groups = collections.defaultdict(list)
    for path, n, name, fn in functions():
        params = re.findall(r'(\w+): ', head(fn).split('ensures')[0].split('requires')[0])
        for clause in re.findall(r'requires (?:\w+ )?\{(.*)\}', head(fn)):
            if re.search(r'length \w+\.(now|old) ≡ \d+', clause):
                continue
            c = clause
            for p in params:
                c = re.sub(r'\b%s\b' % p, '_', c)
            groups[c].append((path, n, 'fn %s: %s' % (name, clause.strip())))
    for g in groups.values():
        if len(g) > 2:
            yield from g


def travellers():
    """5c: three parameters or more, of the same names and types, that three functions or more take together"""
    sets = {}
    for path, n, name, fn in functions():
        m = re.search(r'fn \w+(?:<[^>]*>)?\(([\s\S]*?)\)\s*(?:->|\n\s*(?:requires|ensures)|\n?\{)', fn)
        ps = frozenset(re.findall(r"(\w+: (?:&(?:'a )?(?:mut )?)?[\w<>\[\]; ]+)", m.group(1))) if m else frozenset()
        sets[(path, n, name)] = frozenset(p for p in ps if not p.startswith(('block:', 'b:', 'tick:')))
    found = set()
    keys = list(sets)
    for i, a in enumerate(keys):
        for b in keys[i + 1:]:
            common = sets[a] & sets[b]
            if len(common) > 2 and sum(common <= s for s in sets.values()) > 2:
                found |= {k for k in keys if common <= sets[k]}
    for path, n, name in sorted(found):
        yield path, n, 'fn ' + name


def lists():
    """6: a list with its length beside it, and parallel columns, as parameters"""
    yield from lines(r'(\[ObjectId; WAIT_LIST\]|\[u32; WAIT_LIST\]).*n: (u32|usize)')
    yield from lines(r"^\s+(threads|addresses|nexts|nx|ts|ad|ks|rs|ns|hs): &")


def choices():
    """7: function pointers and tables of functions"""
    return lines(r'\bfn\(|dyn ')


POINTS = [options, flags, refusals, failures, sentinels, twins, loops, tests, arms, copies, lengths, facts, travellers, lists, choices]


def main():
    wanted = sys.argv[1:]
    for point in POINTS:
        places = list(point())
        label = point.__doc__
        if not wanted:
            print('%5d  %s' % (len(places), label))
        elif label.startswith(wanted[0]):
            for path, n, what in places:
                print('%s:%d: %s' % (path, n, what))
    if not wanted:
        answers = files = 0
        for path in glob.glob('crates/*/proofs/**/Answers.antt', recursive=True):
            files += 1
            with open(path) as f:
                answers += len(re.findall(r'^pub .* : goal\.', f.read(), re.M))
        print('%5d  8: answers, in %d files' % (answers, files))


if __name__ == '__main__':
    main()
