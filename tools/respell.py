#!/usr/bin/env python3
# Respells this repository's own definitions and lemmas after port.py: words in snake case, types and facts in
# camel case. It is run once, at the top; on a tree that is respelled already it changes nothing.
#
# It renames what specs/ and proofs/ declare and nothing else: functions of src/, goals and steps that Rattle
# names after the code, strings and comments keep their names. Where a contract's file has an item of a word's
# new name, the word is imported there as WORD_of, or as the_WORD where it ends so already.
import collections
import glob
import re

WORD = re.compile(r"[A-Za-z_][A-Za-z0-9_'₀-₉-]*")
SIGNATURE = re.compile(r"\s*(?:(?:abbrev|unfoldable|pub)\s+)*([A-Za-z_][\w'₀-₉-]*)\s+:\s")
NAMED = re.compile(r"\s*(?:(?:abbrev|unfoldable|pub)\s+)*(?:record|data|ruleset)\s+([A-Za-z_][\w'₀-₉-]*)")
ALIAS = re.compile(r"\bas ([A-Za-z_][\w'₀-₉-]*)")
ITEM = re.compile(r"^\s*(?:pub(?:\([a-z]+\))? )?(?:const |unsafe )?(?:fn|struct|enum|trait|const|static|type|mod)\s+(\w+)", re.M)
ANSWERED = ('Answers.antt', 'Invariants.antt')


IMPORT = re.compile(r"^\s*(?:pub )?use ([^;]*);", re.M)


def respelled(name):
    if name[0].isupper():
        return ''.join(part[:1].upper() + part[1:] for part in re.split('[-_]', name))
    return name.replace('-', '_')


def is_answered(path):
    return path.endswith(ANSWERED)


def declared(paths):
    names = set()
    for path in paths:
        for line in open(path, encoding='utf-8'):
            if line.strip().startswith('--'):
                continue
            found = NAMED.match(line) or SIGNATURE.match(line)
            if found and not (is_answered(path) and re.search(r':\s+goal\.', line)):
                names.add(found.group(1))
            if line.startswith('use '):
                names.update(ALIAS.findall(line))
    return names


def in_antt(text, names, answered):
    out = []
    for line in text.split('\n'):
        code, dashes, comment = line.partition('-- ') if not line.strip().startswith('--') else ('', line, '')
        goal = re.match(r"\s*(?:abbrev )?(?:pub )?([\w'-]+) : goal\.", code) if answered else None

        def one(found):
            word = found.group(0)
            before = code[:found.start()]
            if answered and (re.search(r"(?<![\w.'-])[a-z]\.$", before) or before.endswith('goal.')):
                return word
            if answered and (goal or before == '') and found.start() <= len('abbrev pub '):
                return word if word in goals or goal else names.get(word, word)
            return names.get(word, word)

        if goal:
            goals.add(goal.group(1))
        out.append(WORD.sub(one, code) + dashes + comment)
    return '\n'.join(out)


def clauses(text):
    # the spans of ghost imports, clauses and ghost members, by their braces
    for found in re.finditer(r'\bghost use [^;]*;|^\s*(?:pub )?(?:requires|ensures|ghost)\b\*?[^{;\n]*\{', text, re.M):
        if found.group(0).startswith('ghost use'):
            yield found.span()
            continue
        depth, at = 1, found.end()
        while depth:
            depth += {'{': 1, '}': -1}.get(text[at], 0)
            at += 1
        yield found.start(), at


def in_source(text, names):
    items = set(ITEM.findall(text))
    for line in IMPORT.findall(text):
        items.update(re.findall(r'\w+', line.rpartition('::')[2] if '{' not in line else line.partition('{')[2]))
    out, last = [], 0
    clash = {old: 'the_' + new if new.endswith('_of') else new + '_of' for old, new in names.items() if new in items}
    for start, end in clauses(text):
        part = text[start:end]
        if part.startswith('ghost use'):
            def imported(found):
                word = found.group(0)
                if word in clash and not re.match(r'\s+as\b', part[found.end():]) and not re.search(r'\bas\s+$', part[:found.start()]):
                    return f'{names[word]} as {clash[word]}'
                return names.get(word, word)
            part = WORD.sub(imported, part)
        else:
            # a label is a Rust name, and stays
            head, brace, body = part.partition('{')
            part = head + brace + WORD.sub(lambda found: clash.get(found.group(0), names.get(found.group(0), found.group(0))), body)
        out += [text[last:start], part]
        last = end
    return ''.join(out) + text[last:]


proofs = sorted(glob.glob('crates/*/specs/**/*.antt', recursive=True) + glob.glob('crates/*/proofs/**/*.antt', recursive=True))
sources = sorted(glob.glob('crates/*/src/**/*.rt', recursive=True))
words = declared(proofs)
for source in sources:
    for line in re.findall(r'\bghost use [^;]*;', open(source, encoding='utf-8').read()):
        words.update(ALIAS.findall(line))
names = {word: respelled(word) for word in words if respelled(word) != word}
meet = collections.Counter(names.values())
taken = sorted(new for new in meet if meet[new] > 1 or new in words)
if taken:
    raise SystemExit('these fall together: ' + ', '.join(taken))
for path in proofs:
    goals = set()
    text = open(path, encoding='utf-8').read()
    new = in_antt(text, names, is_answered(path))
    if new != text:
        open(path, 'w', encoding='utf-8').write(new)
for path in sources:
    text = open(path, encoding='utf-8').read()
    new = in_source(text, names)
    if new != text:
        open(path, 'w', encoding='utf-8').write(new)
print(f'{len(names)} names respelled')
