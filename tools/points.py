#!/usr/bin/env python3
"""Counts the places of the points of docs/DESIGN-PASS.md in the sources of crates/*/src, at the top of a checkout.
   With -v it names each place."""
import collections, glob, re, sys

LIST = '-v' in sys.argv
SOURCES = sorted(glob.glob('crates/*/src/**/*.rt', recursive=True))


def items():
    """(file, line, kind, name, head, body) of each function, struct and enum."""
    for path in SOURCES:
        lines = open(path).read().split('\n')
        i = 0
        while i < len(lines):
            m = re.match(r'^(\s*)(pub )?(extern "C" )?(fn|struct|enum) (\w+)', lines[i])
            if not m:
                i += 1
                continue
            indent, kind, name = m.group(1), m.group(4), m.group(5)
            j = i
            while not (lines[j] == indent + '}' or (kind != 'fn' and re.search(r'[;]$', lines[j])) or lines[j].endswith('}')
                       and j > i and lines[j].startswith(indent + '}')):
                j += 1
                if j >= len(lines):
                    break
            text = lines[i:j + 1]
            brace = next((k for k, l in enumerate(text) if l == indent + '{' or l.endswith('{') and kind != 'fn'
                          or kind == 'fn' and re.search(r'\) (-> .*)?\{$', l)), 0)
            yield path, i + 1, kind, name, text[:brace + 1], text[brace + 1:]
            i += 1


def say(title, places):
    print(f'{len(places):4}  {title}')
    if LIST:
        for place in places:
            print('        ' + place)


ALL = list(items())
at = lambda p, n, what: f'{p}:{n} {what}'

enums = [at(p, n, name) for p, n, k, name, h, b in ALL if k == 'enum']
flags, codes, lens, same_parts = [], [], [], []
for p, n, k, name, h, b in ALL:
    if k == 'struct':
        body = '\n'.join(b)
        for f in re.findall(r'(\w+): bool', body):
            flags.append(at(p, n, f'{name}.{f}'))
        for f in re.findall(r'(\w*(?:number|phase|kind)\w*): u', body):
            codes.append(at(p, n, f'{name}.{f}'))
        if re.search(r': \[', body) and re.search(r'\w*len: u', body) or re.search(r'first: u8', body):
            lens.append(at(p, n, name))
    if k == 'fn':
        head = ' '.join(h)
        if re.search(r'-> u(8|32)\b', head) and re.search(r'number|refusal|edition_of|rwkv_', name):
            codes.append(at(p, n, name + '()'))
        for f in re.findall(r'(\w*(?:number|refusal|kind|short|which)): u', head):
            codes.append(at(p, n, f'{name}({f})'))
        if re.search(r'\b(bytes|labels): &\[u8\],\s+n: usize', head) or re.search(r'ids: &\[u32\],\s+count: usize', head) \
                or re.search(r'start: usize,\s+len: usize', head):
            lens.append(at(p, n, name + '()'))

print('1. own enums of the shape of Option or Result, flags with a value, numbers for kinds or refusals')
say('enums', enums)
say('fields that are flags', flags)
say('numbers for kinds or refusals, in fields, results and parameters', codes)

print('2. twins that differ only in a type, a size or a constant')
shapes = collections.defaultdict(list)
for p, n, k, name, h, b in ALL:
    if k == 'fn' and b and 'rwkv_tokenizer_c' not in p:
        body = ' '.join(l.strip() for l in b if not l.strip().startswith('//'))
        body = re.sub(r'0x[0-9a-f]+|\b\d+\b|b\'.\'', '#', body)
        body = re.sub(r'\b(u8|u16|u32|u64|usize|i32)\b', 'T', body)
        names = {}
        body = re.sub(r'[A-Za-z_]\w*(::\w+)*', lambda m: names.setdefault(m.group(0), f'x{len(names)}'), body)
        if len(body) > 24:
            shapes[body].append(at(p, n, name))
twins = [' = '.join(v) for v in shapes.values() if len(v) > 1]
sized = [at(p, n, name) for p, n, k, name, h, b in ALL
         if k in ('fn', 'struct', 'enum') and re.search(r'_(u8|u16|u32|u64|i32|usize|[0-9])$', name)]
say('groups of functions with one shape, names and numbers aside', twins)
say('names that end in a type or a size', sized)

print('3. loops that count an index by hand')
loops = []
for p in SOURCES:
    for n, l in enumerate(open(p), 1):
        if re.match(r'\s*(while|loop)\b', l):
            loops.append(at(p, n, l.strip()))
say('`while` and `loop`', loops)

print('4. equality, order, copying, conversion and printing by hand')
conv = [at(p, n, name) for p, n, k, name, h, b in ALL if k == 'fn' and (
    re.search(r'_to_|^(larger|smaller|one_less|short|next_place|after|next_root|byte_at|put_byte|word_at|put)$', name)
    or re.match(r'(place_kind|place_value|numbered)$', name)
    or re.match(r'(write|write_number|write_decoded|write_refusal|outcome_of|whole_outcome|text_of|edition_of)$', name)
    or re.match(r'(finished|finished_of|finished_by)$', name))]
copies = []
for p in SOURCES:
    for n, l in enumerate(open(p), 1):
        m = re.match(r'\s*(\w+): (\w+)\.(\w+),$', l)
        if m and m.group(1) == m.group(3):
            copies.append(at(p, n, l.strip()))
say('functions that convert, copy, compare or print by hand', conv)
say('fields copied one by one into a new value', copies)

print('5. facts and parameters that travel together')
together = [at(p, n, name) for p, n, k, name, h, b in ALL if k == 'fn'
            and len(re.findall(r'\b(single|offsets|blob|roots|table): &', ' '.join(h))) >= 2]
marks = [at(p, n, name) for p, n, k, name, h, b in ALL if k == 'fn'
         and len(re.findall(r'\b(nodes|used|bases|used_bases|cursors|firsts|lasts): &', ' '.join(h))) >= 2]
facts = collections.defaultdict(list)
for p, n, k, name, h, b in ALL:
    if k == 'fn':
        m = re.search(r'requires (?:\w+ )?\{(.*?)\}\s*(?:ensures|requires|\{|$)', ' '.join(x.strip() for x in h), re.S)
        if m:
            for c in m.group(1).split('×'):
                c = re.sub(r'\s+', ' ', c).strip(' ()')
                facts[c].append(at(p, n, name))
say('functions with two or more of the five parts of the memory', together)
say('functions with two or more of the runs of work memory', marks)
say('facts that three or more functions require', [f'{c}: {len(v)}' for c, v in facts.items() if len(v) > 2])

print('6. buffers with a length beside, parallel arrays, lists searched by hand, arenas of indices')
say('structs and parameters', lens)

print('7. a switch on which step to run, tables of functions')
switch = [at(p, n, name) for p, n, k, name, h, b in ALL if k == 'fn'
          and re.search(r'match (kind|memory|edition)\b|if kind ==', ' '.join(b))]
say('functions that choose by a kind', switch)

print('8. proofs in crates/*/proofs')
answers = glob.glob('crates/*/proofs/**/Answers.antt', recursive=True)
invariants = glob.glob('crates/*/proofs/**/Invariants.antt', recursive=True)
rest = [f for f in glob.glob('crates/*/proofs/**/*.antt', recursive=True) if not re.search(r'(Answers|Invariants|Lib)\.antt$', f)]
count = lambda fs: sum(len(open(f).read().split('\n')) for f in fs)
print(f'{len(answers):4}  files of answers, {count(answers)} lines')
print(f'{len(invariants):4}  files of invariants, {count(invariants)} lines')
print(f'{len(rest):4}  files of lemmas, {count(rest)} lines')
print(f'{len(SOURCES):4}  sources, {count(SOURCES)} lines')
