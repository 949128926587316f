#!/usr/bin/env python3
"""usage: rename.py [--write]   at the top of the repository, right after port.py and before its commit

Brings the names of the repository's own definitions, lemmas, local facts, record fields and constructors to today's spelling,
snake case: hourOf becomes hour_of, value-of-byte value_of_byte. port.py respells only names that a library of the kit has too.
Turned are .antt and .rt files (ghost text alone: no name of Rattle code is in camel case), must-fail edits and what README.md
and docs/ have in backticks. Names that port.py turned are turned in edits and pages too, which it leaves.

Without --write it only lists the names that would fall together with another name; CHOSEN settles those. With --write it lists
old and new names in docs/renamed.txt. Generated names (goal.x, tie.x) and those that a walk or answer file defines stay."""
import sys, os, re, glob, subprocess

SEP = r"\s(){}\[\];.,:\"`λ→×"
TOK = re.compile(rf"[^{SEP}]+")
HEAD = re.compile(rf"^\s*(?:(?:abbrev|unfoldable|pub|ruleset|mod) )*([^{SEP}]+)(?: :(?= )| =)")
PAGES = ['README.md'] + sorted(glob.glob('docs/*.md'))

# Names that would fall together with another one, and so get a name of their own.
CHOSEN = {
    # the record rules: each stands as a test of the bytes and as a fact, a field of RecordRules. The field has the plain name.
    'secondsBit7': 'seconds_bit_7_rule', 'noTestPattern': 'no_test_pattern_rule', 'cLowBits': 'c_low_bits_rule',
    'irqfByRule': 'irqf_rule', 'dLowBits': 'd_low_bits_rule', 'vrtWhilePsLow': 'vrt_while_ps_low_rule',
    'enablesWhileResetLow': 'enables_while_reset_low_rule', 'flagsWhileResetLow': 'flags_while_reset_low_rule',
    'countByBase': 'count_by_base_rule', 'uipIsPending': 'uip_is_pending_rule', 'pendingSet': 'pending_set_rule',
    'pendingRuns': 'pending_runs_rule', 'pendingBeforeEnd': 'pending_before_end_rule', 'upperBits': 'upper_bits_rule',
    'spareByte': 'spare_byte_rule',
    'seconds-bit-7': 'seconds_bit_7', 'no-test-pattern': 'no_test_pattern', 'c-low-bits': 'c_low_bits', 'irqf-by-rule': 'irqf_by_rule',
    'd-low-bits': 'd_low_bits', 'vrt-while-ps-low': 'vrt_while_ps_low', 'enables-while-reset-low': 'enables_while_reset_low',
    'flags-while-reset-low': 'flags_while_reset_low', 'pending-set': 'pending_set', 'pending-runs': 'pending_runs',
    'pending-before-end': 'pending_before_end', 'upper-bits': 'upper_bits',
    # the divider's tests keep their names in snake case; a local fact and a field of Sound give way
    'atEnd': 'at_end', 'at-end': 'at_end_lem', 'beforeEnd': 'before_end', 'before-end': 'before_the_end',
}


def git(*a):
    return subprocess.run(['git', *a], capture_output=True, text=True).stdout


def uncommented(t):
    return re.sub(r"--[^\n]*", "", t)


def made(f):  # files that define names of the check's making
    return os.path.basename(f) in ('Proof.antt', 'Answers.antt', 'Invariants.antt')


def declared(t):
    for l in uncommented(t).split('\n'):
        m = HEAD.match(l)
        if m and not re.match(r"\s*(use|let|pub use)\b", l):
            yield m.group(1)


def snake(n):
    return re.sub(r"(?<=[a-z0-9])([A-Z])", lambda m: '_' + m.group(1).lower(), n).replace('-', '_')


def to_turn(n):
    return re.match(r"^[a-z][\w'-]*$", n) and (re.search('[A-Z]', n) or '-' in n) and not re.search('-[A-Z]', n)


antt = sorted(glob.glob('crates/*/specs/**/*.antt', recursive=True) + glob.glob('crates/*/proofs/**/*.antt', recursive=True))
rts = sorted(glob.glob('crates/*/src/*.rt'))
text = {f: open(f).read() for f in antt + rts}
defs = {}
for f in antt:
    if not made(f):
        for n in declared(text[f]):
            defs.setdefault(n, set()).add(f)
ren = {n: CHOSEN.get(n, snake(n)) for n in defs if to_turn(n)}

# a top-level lemma that would have its function's name gets `_lem`
top = {n for n in defs if any(re.search(rf"^(?:pub )?{re.escape(n)} :", text[f], re.M) for f in defs[n])}
for o in [o for o in ren if '-' in o and o in top and o not in CHOSEN]:
    if any(ren[q] == ren[o] and q != o for q in ren):
        ren[o] += '_lem'
camel = {o: n for o, n in ren.items() if '-' not in o}

# what port.py turned before: names of the last commit that are gone, and whose snake case stands in their place
before = set()
for f in git('ls-tree', '-r', '--name-only', 'HEAD', 'crates').split():
    if f.endswith('.antt') and not made(f):
        before |= set(declared(git('show', 'HEAD:' + f)))
ported = {n: snake(n) for n in before if to_turn(n) and n not in defs and snake(n) in defs}

toks = {f: set(TOK.findall(uncommented(t) if f.endswith('.antt') else re.sub(r"//[^\n]*", "", t))) for f, t in text.items()}
bad, back = [], {}
for o, n in ren.items():
    back.setdefault(n, []).append(o)
for n, os_ in back.items():
    if len(os_) > 1 and any(len(toks[f] & set(os_)) > 1 for f in antt if not made(f)):
        bad.append((os_, n, [f for f in antt if len(toks[f] & set(os_)) > 1]))
for o, n in ren.items():
    for f in toks:
        if made(f) or o not in toks[f] or n not in toks[f]:
            continue
        if f.endswith('.rt'):  # a function of the code may have its definition's name
            body = re.sub(r"ghost use[^;]*;", "", re.sub(r"//[^\n]*", "", text[f]))
            if not re.search(rf"(?<!fn )(?<!::)\b{re.escape(n)}\b(?!\s*\()", body):
                continue
        bad.append(([o], n, [f]))
for b in sorted(bad, key=str):
    print('falls together:', *b)
print(len(ren), 'names,', len(ported), 'more that port.py turned;', len(bad), 'fall together')
if '--write' not in sys.argv:
    sys.exit(0)
if bad:
    sys.exit('choose names first')


def sub(t, m, own=frozenset()):
    def g(x):
        w = x.group(0)
        if w in own or w not in m or re.search(r"\b(goal|tie)\.$", t[max(0, x.start() - 5):x.start()]):
            return w
        return m[w]
    return TOK.sub(g, t)


def antt_sub(t, own=frozenset()):
    out = []
    for l in t.split('\n'):
        i = l.find('--')
        i = len(l) if i < 0 or (i and l[i - 1] != ' ') else i
        out.append(sub(l[:i], ren, own) + sub(l[i:], camel, own))
    return '\n'.join(out)


def put(f, t):
    if t != open(f).read():
        open(f, 'w').write(t)


for f in antt:
    put(f, antt_sub(text[f], set(declared(text[f])) if made(f) else frozenset()))
for f in rts:
    put(f, sub(text[f], camel))
both = {**ported, **ren}
both_camel = {o: n for o, n in both.items() if '-' not in o}
dashed = {o: n for o, n in both.items() if '-' in o}
for f in sorted(glob.glob('crates/*/must-fail/*.edit')):
    t = open(f).read()
    here = both_camel if re.search(r"^file: .*\.rt", t, re.M) else both
    put(f, '\n'.join(sub(l, here) if re.match('old: |new:', l) else sub(l, dashed) for l in t.split('\n')))
for f in PAGES:
    put(f, re.sub(r"`[^`\n]*`", lambda m: sub(m.group(0), both), open(f).read()))
open('docs/renamed.txt', 'w').write(''.join(f'{o} {n}\n' for o, n in sorted(both.items())))
