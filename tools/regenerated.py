#!/usr/bin/env python3
# Respells, in answers and invariants, the names that Rattle makes after the code: a Rust name in them keeps its
# underscores (`take_out`, where an older Rattle wrote `take-out`), and the arms of `?` are in_ok and in_err.
import glob
import re

for path in sorted(glob.glob('crates/*/proofs/**/*.antt', recursive=True)):
    if not path.endswith(('Answers.antt', 'Invariants.antt')):
        continue
    crate = path.split('/')[1]
    source = '\n'.join(open(rt, encoding='utf-8').read() for rt in glob.glob(f'crates/{crate}/src/**/*.rt', recursive=True))
    rust = {word for word in re.findall(r'\b[a-z][a-z0-9]*(?:_[a-z0-9]+)+\b', source)}
    pairs = sorted(((word.replace('_', '-'), word) for word in rust), key=lambda pair: -len(pair[0]))
    pairs += [('in-ok', 'in_ok'), ('in-err', 'in_err'), ('in-default', 'in_default'), ('offset-bounds', 'offset_bounds'), ('slice-bounds', 'slice_bounds'), ('from-residual', 'from_residual')]
    pairs += [(f'overflow-{word}', f'overflow_{word}') for word in ('add', 'sub', 'mul', 'neg', 'cast', 'div', 'rem', 'shl', 'shr')]
    text = open(path, encoding='utf-8').read()
    kept = set()
    for line in re.findall(r'^use ([^{\n]*)\{(.*)\}', text, re.M):
        if not line[0].endswith('Goals.'):
            kept.update(re.findall(r"[\w'-]+", line[1]))

    def turned(found):
        word = found.group(0)
        if word in kept or '-' not in word:
            return word
        for old, new in pairs:
            word = re.sub(rf'(?<![A-Za-z0-9_]){re.escape(old)}(?![A-Za-z0-9_])', new, word)
        return word

    new = re.sub(r"[A-Za-z_][\w'-]*", turned, text)
    if new != text:
        open(path, 'w', encoding='utf-8').write(new)
