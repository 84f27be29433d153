#!/usr/bin/env python3
"""Respells names of goals and steps in proof files: names from src/ keep their underscores, and so do Rattle's own words.

usage: python3 tools/respell_goals.py [NAME..]      at the top of the repository: for these crates, or all
"""
import glob
import re
import sys

OWN = ['type_inv', 'in_ok', 'in_err', 'in_default', 'slice_bounds', 'offset_bounds', 'nonzero_div', 'nonzero_rem', 'invariant_of'] + \
    ['overflow_' + w for w in ('add', 'sub', 'mul', 'cast', 'step', 'shl', 'shr', 'neg')]


def read(path):
    with open(path, encoding='utf-8') as f:
        return f.read()


def main():
    names = sys.argv[1:] or [p.split('/')[1] for p in sorted(glob.glob('crates/*'))]
    everywhere = ''.join(read(p) for p in glob.glob('crates/*/src/**/*.rt', recursive=True))
    code = re.sub(r'//.*|ghost use .*', '', everywhere)
    words = sorted(set(re.findall(r'\b[A-Za-z][A-Za-z0-9]*(?:_[A-Za-z0-9]+)+\b', code)) | set(OWN) | {'as_slice', 'from_slice', 'copy_from_slice', 'copy_within', 'is_empty', 'saturating_sub', 'wrapping_add', 'split_at'}, key=len, reverse=True)
    pattern = re.compile(r"(?<![\w'])(" + '|'.join(re.escape(w.replace('_', '-')) for w in words) + r")(?![\w'])")
    back = {w.replace('_', '-'): w for w in words}
    for name in names:
        for path in glob.glob(f'crates/{name}/proofs/**/*.antt', recursive=True):
            if path.rsplit('/', 1)[1] not in ('Answers.antt', 'Invariants.antt', 'Proof.antt'):
                continue
            text = read(path)
            lines = text.split('\n')
            out = []
            for line in lines:
                if line.startswith('use ') and 'Goals' not in line and 'Given' not in line:
                    out.append(line)
                else:
                    out.append(pattern.sub(lambda m: back[m.group(1)], line))
            new = '\n'.join(out)
            if new != text:
                with open(path, 'w', encoding='utf-8') as f:
                    f.write(new)
                print(path)


main()
