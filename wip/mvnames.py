#!/usr/bin/env python3
"""mvnames.py REPO MAPFILE
Rewrites `use` lines in crates/**/*.antt and crates/**/*.rt after definitions or lemmas were moved from one module to another.
MAPFILE lines:   crate.specs.File name,name,.. -> crate2.specs.File2      (these names moved)
                 crate.specs.File * -> crate2.proofs.File2                (the whole module moved or was renamed; also its submodules)
Modules are written crate.specs.X or crate.proofs.X (X may have dots: lines.Taking, declared.Load); the tool writes them
as Rattle·c·specs.specs.X inside crate c and as Rattle·c.specs.X elsewhere."""
import sys,os,re
repo,mapf=sys.argv[1:3]
names={}; whole={}
for line in open(mapf):
    line=line.strip()
    if not line or line.startswith('#'): continue
    l,r=[x.strip() for x in line.split('->')]
    m,ns=l.split(None,1)
    for n in [x.strip() for x in ns.split(',')]:
        if n=='*': whole[m]=r
        else: names[(m,n)]=r
W='[A-Za-z0-9_·′″₀-₉\\-]+'
MOD=re.compile(r'Rattle·([a-z0-9_]+)(·specs\.specs|·proofs\.proofs|\.specs|\.proofs)\.((?:'+W+r'\.)*'+W+')')
def canon(m):
    k='specs' if 'specs' in m.group(2) else 'proofs'
    return m.group(1),k,m.group(3)
def spell(mod,here):
    c,k,rest=mod.split('.',2)
    return f'Rattle·{c}·{k}.{k}.{rest}' if c==here else f'Rattle·{c}.{k}.{rest}'
def target(mod):
    if mod in whole: return whole[mod]
    parts=mod.split('.')
    for i in range(len(parts)-1,2,-1):
        p='.'.join(parts[:i])
        if p in whole: return whole[p]+'.'+'.'.join(parts[i:])
    return mod
USE=re.compile(r'^([ ]*)((?:ghost )?use )(Rattle·[^\s{;]+?)(?:\.\{([^}]*)\}|( as [^\s;]+)?)(;?)[ ]*$',re.M)
def wrap(indent,kw,mod,ns,semi):
    out=[];cur=[]
    head=f'{indent}{kw}{mod}.{{'
    for n in ns:
        if cur and len(head+', '.join(cur+[n])+'}'+semi)>138:
            out.append(head+', '.join(cur)+'}'+semi); cur=[]
        cur.append(n)
    out.append(head+', '.join(cur)+'}'+semi)
    return '\n'.join(out)
changed=0
for root,ds,fs in os.walk(os.path.join(repo,'crates')):
    for f in fs:
        if not f.endswith(('.antt','.rt')): continue
        p=os.path.join(root,f); here=os.path.relpath(p,os.path.join(repo,'crates')).split(os.sep)[0]
        rel=os.path.relpath(p,os.path.join(repo,'crates',here))
        self=here+'.'+rel[:-5].replace(os.sep,'.') if f.endswith('.antt') else None
        s=open(p).read()
        def sub(m):
            indent,kw,path,ns,alias,semi=m.groups()
            mm=MOD.fullmatch(path)
            if not mm: return m.group(0)
            c,k,rest=canon(mm); mod=f'{c}.{k}.{rest}'
            if ns is None:
                t=target(mod)
                if t==mod: 
                    # use M.name (single)  e.g. use Rattle·laws.specs.Perm.bit
                    pm='.'.join(mod.split('.')[:-1]); n=mod.split('.')[-1]
                    if (pm,n) in names: return f'{indent}{kw}{spell(names[(pm,n)],here)}.{n}{alias or ""}{semi}'
                    return m.group(0)
                return f'{indent}{kw}{spell(t,here)}{alias or ""}{semi}'
            items=[x.strip() for x in ns.replace('\n',' ').split(',') if x.strip()]
            groups={}
            for it in items:
                n=it.split(' as ')[0].strip()
                t=names.get((mod,n)) or target(mod)
                groups.setdefault(t,[]).append(it)
            if list(groups)==[mod]: return m.group(0)
            return '\n'.join(wrap(indent,kw,spell(t,here),g,semi) for t,g in groups.items() if t!=self) or '\x00'
        n=USE.sub(sub,s)
        n=n.replace('\x00\n','')
        # qualified uses inside text: Rattle·c.specs.F.name
        def sub2(m):
            c,k,rest=canon(m); mod=f'{c}.{k}.{rest}'
            t=target(mod)
            if t!=mod: return spell(t,here)
            parts=mod.split('.')
            pm='.'.join(parts[:-1])
            if (pm,parts[-1]) in names: return spell(names[(pm,parts[-1])],here)+'.'+parts[-1]
            return m.group(0)
        lines=n.split('\n')
        for i,l in enumerate(lines):
            if not re.match(r'\s*(ghost )?use ',l): lines[i]=MOD.sub(sub2,l)
        n='\n'.join(lines)
        if n!=s:
            open(p,'w').write(n); changed+=1
print('files changed',changed)
