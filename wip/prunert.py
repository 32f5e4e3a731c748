#!/usr/bin/env python3
"""Drops names of `ghost use M.{..};` and `use a::b;` lines that a .rt file does not use."""
import sys,re
for f in sys.argv[1:]:
    s=open(f).read()
    body='\n'.join(l for l in s.split('\n') if not re.match(r'\s*(ghost )?(pub )?use ',l))
    code='\n'.join(l.split('//')[0] if not l.strip().startswith('//') else '' for l in body.split('\n'))
    def used(n):
        if ' as ' in n: n=n.split(' as ')[1].strip()
        if n.startswith('_') and n.endswith('_') and len(n)>2:
            return n.strip('_') in code
        return re.search(r'(?<![\w·′\-])'+re.escape(n)+r'(?![\w·′\-])',code) is not None
    out=[]
    for l in s.split('\n'):
        m=re.match(r'^(ghost use [^{]*\.\{)([^}]*)(\};)$',l)
        if m:
            ns=[x.strip() for x in m.group(2).split(',')]
            k=[n for n in ns if used(n)]
            if not k: continue
            l=m.group(1)+', '.join(k)+m.group(3)
        else:
            m=re.match(r'^use ([\w:]+);$',l)
            if m and not used(m.group(1).split('::')[-1]): continue
        out.append(l)
    n='\n'.join(out)
    if n!=s: open(f,'w').write(n)
