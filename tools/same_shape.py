#!/usr/bin/env python3
"""Functions of src/ whose text is the same but for names and numbers, a line for each group: candidates for one generic function.

    tools/same_shape.py [FILE ..]     all of crates/*/src, or these"""
import glob, re, sys

WORDS = set('fn pub crate mut let if else for in while loop return match true false self Self as bool u8 u16 u32 u64 usize requires ensures'.split())


def functions(path):
    text = re.sub(r'//.*', '', open(path, encoding='utf-8').read())
    for found in re.finditer(r'(?m)^( *)(?:pub(?:\(crate\))? )?(?:extern "C" )?fn (\w+)(?:.|\n)*?\n\1(?:\{\}|\}\n)', text):
        yield found[2], found[0]


def shape(text):
    text = re.sub(r'(?:requires|ensures)[^{\n]*\{.*', '', text)
    text = re.sub(r'\b(?:u8|u16|u32|u64|usize)\b', 'N', text)
    return ' '.join(word if word in WORDS or not word[0].isalnum() and word[0] != '_' else 'x' for word in re.findall(r'\w+|[^\w\s]', text))


groups = {}
for path in sys.argv[1:] or sorted(glob.glob('crates/*/src/*.rt')):
    for name, text in functions(path):
        if '{}' not in text.split('\n')[-1]:
            groups.setdefault(shape(text), []).append(f'{path}:{name}')
for group in groups.values():
    if len(group) > 1:
        print(len(group), *group)
