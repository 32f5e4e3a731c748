import os,re,sys
R=sys.argv[1]+'/crates/'
files={}
def load(c,f):
    p=f'{R}{c}/specs/{f}.antt'
    if not os.path.exists(p): return None
    key=(c,f)
    if key in files: return files[key]
    s=open(p).read()
    imps={}; alias={}
    for m in re.finditer(r'(?m)^use Rattle·([a-z_]+)(?:·specs\.specs|\.specs)\.([A-Za-z0-9]+)(?:\.([A-Za-z0-9.\-]+))?(?:\.\{([^}]*)\}| as ([^\s]+))?$',s):
        cc,ff,rest,names,al=m.groups()
        if rest and ff=='declared': continue
        if names:
            for n in names.replace('\n',' ').split(','):
                n=n.strip(); a=n.split(' as ')
                if n: imps[a[-1].strip()]=((cc,ff),a[0].strip())
        elif al: alias[al]=(cc,ff)
        else: alias[ff]=(cc,ff)
    body=re.sub(r'(?ms)^use .*?(?:\}|$)\n','',s)
    decls={}; owner={}
    blocks=re.split(r'\n\s*\n',body)
    lines_of={}
    n=0
    for b in blocks:
        ls=[l for l in b.split('\n') if l.strip() and not l.strip().startswith('--') and not l.strip().startswith('unfolding ')]
        if not ls: continue
        t='\n'.join(ls)
        names=set()
        for l in ls:
            m=re.match(r'^\s*(?:infix.*)?$',l)
            m=re.match(r'^ *(?:unfoldable |abbrev )*(?:pub )?(?:unfoldable |abbrev )*(?:pub )?(?:(record|data) )?([^\s:(){}]+)(?: :| \()',l)
            if m: names.add(m.group(2))
            if re.match(r'^ +[a-z][A-Za-z ]* : ',l):
                for x in l.split(':')[0].split(): names.add(x)
        id=n; n+=1
        toks=set(re.findall(r"[^\s(){}\[\];,.|]+",t))
        qual=set(re.findall(r"([A-Za-z\-]+)\.([A-Za-z0-9\-]+)",t))
        decls[id]=(names,len(ls),toks,qual,t)
        for x in names: owner.setdefault(x,id)
    files[key]=(imps,alias,decls,owner)
    return files[key]
seen=set(); per={}
def visit(key,id):
    if (key,id) in seen: return
    seen.add((key,id))
    imps,alias,decls,owner=files[key]
    names,k,toks,qual,t=decls[id]
    per[key]=per.get(key,0)+k
    for x in toks:
        for y in {x,x.lstrip('`'),'_'+x+'_'}:
            if y in owner and owner[y]!=id: visit(key,owner[y])
            elif y in imps:
                kk,nm=imps[y]; follow(kk,nm)
    for a,b in qual:
        if a in alias: follow(alias[a],b)
def follow(key,name):
    f=load(*key)
    if not f: return
    if name in f[3]: visit(key,f[3][name])
roots=[l.split() for l in sys.argv[2:]]
for spec in sys.argv[2:]:
    c,f,names=spec.split(':')
    L=load(c,f)
    if names=='*':
        for i in L[2]: visit((c,f),i)
    else:
        for n in names.split(','): follow((c,f),n)
tot=0
for k in sorted(per): print(k,per[k]); tot+=per[k]
print('total',tot)
