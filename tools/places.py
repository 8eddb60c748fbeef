#!/usr/bin/env python3
"""Prints the lines of src/ that may hold a place where an older form of Rattle stands, point by point (docs/DESIGN-PASS.md).

    tools/places.py [-v] [COMMIT]

With -v each line; without a commit, of the work tree. A line that is found is read before it counts as a place.
"""
import re
import subprocess
import sys

POINTS = {
    '1 enums': r'\benum [A-Z]',
    '1 flags': r'\b[a-z_]+: bool,|-> bool',
    '1 numbers for kinds or refusals':
        r'-> u8\b|\b(cipher|hash|kind|layers|answer|expected|refusal|state): u(8|64)\b|State\(u64\)|const [A-Z_]+: u8\b|^\s*\d+ (=>|if)',
    '2 words that come in pairs':
        r'\b(en|de)cipher\w*\(|\bfn \w*(aes|speck|horner|brw|byte|block|flat|spared|decimal|hex|one|two|first|second|count|_[0-5])\b',
    '2 implementations of one trait': r'^impl\b.* for ',
    '3 loops': r'^\s*(while |loop\b|let .*= loop)|^\s*for .* in [^{]*\.\.',
    '3 items': r'^\s*for .* in (?!.*\.\.)',
    '4 comparisons': r'matches!|\.(value|refusal|sector|layer|number\(\)|as_slice\(\)) == |fn (same|lies_as|is_named|refused|all|agrees)\b',
    '4 conversions':
        r'copy_from_slice|fn (number|word|named|from_bytes|to_bytes|of|block|key_of|sixteen|first_eight|told|number_of|cipher_of|hash_of|values|put_number|of_round)\b',
    '4 printing': r'fmt::Display for|fn fmt\b',
    '5 facts asked for': r'^\s*requires\b',
    '5 functions with four parameters or more': None,
    '6 buffers, lists and indices': r': Vec<|Option<usize>|\b(at|filled|used|listed): usize|bad: &|^(pub )?\w+: \[|, \[\w+; \d+\], usize',
    '7 switches': r'\bmatch (\*?self\b|direction|cipher|hash|kind|\(?&?mut \*self|self\.layers|\$layers|call|\(self, line\)|effect|record)',
}


def texts(commit):
    if commit:
        names = subprocess.run(['git', 'ls-tree', '-r', '--name-only', commit], capture_output=True, text=True, check=True)
    else:
        names = subprocess.run(['git', 'ls-files'], capture_output=True, text=True, check=True)
    for name in names.stdout.split('\n'):
        if re.match(r'crates/\w+/src/.*\.rt$', name):
            if commit:
                yield name, subprocess.run(['git', 'show', f'{commit}:{name}'], capture_output=True, text=True, check=True).stdout
            else:
                with open(name, encoding='utf-8') as file:
                    yield name, file.read()


def lines(pattern, text):
    for number, line in enumerate(text.split('\n'), 1):
        if not line.lstrip().startswith('//') and re.search(pattern, line):
            yield number, line.strip()


def long_lists(text):
    for found in re.finditer(r'\bfn (\w+)(<[^{;]*?>)?\(([^)]*)\)', text):
        if found.group(3).count(':') + ('self' in found.group(3)) >= 4:
            yield text[:found.start()].count('\n') + 1, 'fn ' + found.group(1)


def main():
    words = [word for word in sys.argv[1:] if word != '-v']
    sources = list(texts(words[0] if words else None))
    for point, pattern in POINTS.items():
        found = [
            (name, number, line)
            for name, text in sources
            for number, line in (lines(pattern, text) if pattern else long_lists(text))
        ]
        print(f'{point}: {len(found)}')
        if '-v' in sys.argv:
            for name, number, line in found:
                print(f'    {name}:{number}: {line}')


main()
