#!/usr/bin/env python3
"""Drops imported names that a file does not use, joins and re-wraps its `use` lines. Usage: prune.py FILE.."""
import sys,re
def used(name, text):
    if ' as ' in name: name=name.split(' as ')[1].strip()
    if '_' in name and not name.isidentifier():
        parts=[p for p in name.split('_') if p]
        return all(re.search(r'(?<![^\s(){},.;\[\]])'+re.escape(p)+r'(?![^\s(){},.;\[\]])', text) or p in text for p in parts)
    if '_' in name and name!='_':
        parts=[p for p in name.split('_') if p]
        if len(parts)==1 and name.startswith('_'): return parts[0] in text
    return re.search(r'(?<![^\s(){},.;\[\]!`‵⌜⌝])'+re.escape(name)+r'(?![^\s(){},.;\[\]⌜⌝])', text) is not None
for f in sys.argv[1:]:
    s=open(f).read()
    lines=s.split('\n')
    out=[];i=0;pend={};order=[]
    # gather logical use statements
    body=[];uses=[];first=None
    j=0
    while j<len(lines):
        l=lines[j]
        m=re.match(r'^((?:unfoldable )?(?:pub )?use) ',l)
        if m:
            st=l
            while st.count('{')>st.count('}'):
                j+=1; st+=' '+lines[j].strip()
            if first is None: first=len(body)
            uses.append(st)
        else: body.append(l)
        j+=1
    text='\n'.join(x for x in body if not x.lstrip().startswith('--'))
    res={};order=[]
    for st in uses:
        m=re.match(r'^((?:unfoldable )?(?:pub )?use) ([^{]*?)\.\{(.*)\}\s*$',st)
        if not m:
            m2=re.match(r'^(use) (\S+) as (\S+)$',st)
            key=('raw',st)
            if m2 and not re.search(r'(?<![^\s(){},;\[\]])'+re.escape(m2.group(3))+r'(?=\.|[\s)])', text): continue
            order.append(key); res[key]=None; continue
        kw,mod,names=m.groups()
        names=[n.strip() for n in re.split(r',(?![^{]*\})',names) if n.strip()]
        if 'pub' not in kw: names=[n for n in names if used(n,text)]
        key=(kw,mod)
        if key not in res: res[key]=[]; order.append(key)
        for n in names:
            if n not in res[key]: res[key].append(n)
    ul=[]
    for k in order:
        if k[0]=='raw': ul.append(k[1]); continue
        ns=res[k]
        if not ns: continue
        cur=[]
        def line(c): return '%s %s.{%s}'%(k[0],k[1],', '.join(c))
        for n in ns:
            if len(line(cur+[n]))>138 and cur: ul.append(line(cur)); cur=[]
            cur.append(n)
        ul.append(line(cur))
    new=body[:first]+ul+body[first:] if first is not None else body
    open(f,'w').write('\n'.join(new))
