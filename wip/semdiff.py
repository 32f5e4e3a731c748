import os,re,sys
def contracts(repo):
    out={}
    for root,ds,fs in os.walk(repo+'/crates'):
        if 'must-fail' in root or '/target' in root: continue
        for f in fs:
            if not f.endswith('.rt'): continue
            s=open(os.path.join(root,f)).read()
            s='\n'.join(l for l in s.split('\n') if not l.strip().startswith('//'))
            for m in re.finditer(r'(?ms)^(?:#\[no_mangle\]\n)?(?:pub )?(?:extern "C" )?fn ([a-z_0-9]+)\((.*?)\n(\})',s):
                t=m.group(0)
                # split signature+contract / body
                i=t.find('\n{\n')
                if i<0:
                    i=t.find(' {\n')
                sig=t[:i]; body=t[i:]
                sig=re.sub(r'^#\[no_mangle\]\n','',sig)
                sig=re.sub(r'^pub ','',sig)
                norm=lambda x: re.sub(r'\s+',' ',re.sub(r',\s*\)',')',re.sub(r'\(\s+','(',x))).strip()
                out.setdefault(m.group(1),[]).append((norm(sig),norm(body),os.path.relpath(os.path.join(root,f),repo+'/crates')))
    return out
def decls(repo,kind):
    out={}
    for root,ds,fs in os.walk(repo+'/crates'):
        if 'must-fail' in root: continue
        for f in fs:
            if not f.endswith('.antt') or f in('Proof.antt','Lib.antt'): continue
            s=open(os.path.join(root,f)).read()
            lines=[l for l in s.split('\n') if not l.strip().startswith('--')]
            # group top-level or module-level declarations: a block begins at a line "X : ..." possibly prefixed
            text='\n'.join(lines)
            text=re.sub(r'(?ms)^use .*?(?:\}|$)\n','',text)
            blocks=re.split(r'\n\s*\n',text)
            for b in blocks:
                b=b.strip('\n')
                if not b.strip() : continue
                n=re.sub(r'\s+',' ',b).strip()
                n=re.sub(r'\bpub ','',n)
                n=re.sub(r'Rattle·[^\s{}();]*\.','',n)
                n=re.sub(r'\{ ','{',n)
                out.setdefault(n,[]).append(os.path.relpath(os.path.join(root,f),repo+'/crates'))
    return out
a,b=sys.argv[1:3]
ca,cb=contracts(a),contracts(b)
print('functions',sum(len(v) for v in ca.values()),sum(len(v) for v in cb.values()))
for n in sorted(set(ca)|set(cb)):
    x=sorted(t[0] for t in ca.get(n,[])); y=sorted(t[0] for t in cb.get(n,[]))
    if x!=y:
        print('==',n)
        for t in ca.get(n,[]):
            if t[0] not in y: print('  -',t[2],t[0][:600])
        for t in cb.get(n,[]):
            if t[0] not in x: print('  +',t[2],t[0][:600])
da,db=decls(a,0),decls(b,0)
print('DECL only in old:')
for n in da:
    if n not in db: print('  -',da[n][0],n[:260])
print('DECL only in new:')
for n in db:
    if n not in da: print('  +',db[n][0],n[:260])
