#!/usr/bin/env python3
"""wrap140.py FILE..: breaks lines of more than 140 characters of .antt files at a place of little depth."""
import re,sys
def brk(l):
    ind=len(l)-len(l.lstrip(' '))
    if l.lstrip().startswith('use ') and '{' in l:
        head,rest=l.split('{',1); names=rest.rstrip('}').split(', ')
        out=[];cur=[]
        for n in names:
            if len(head+'{'+', '.join(cur+[n])+'}')>140: out.append(head+'{'+', '.join(cur)+'}');cur=[]
            cur.append(n)
        out.append(head+'{'+', '.join(cur)+'}')
        return out
    if l.lstrip().startswith('--'):
        i=l.rfind(' ',0,138); return [l[:i],' '*ind+'-- '+l[i+1:]]
    depth=0;best=None
    for i,ch in enumerate(l):
        if i>ind+20 and i<=137 and l[i-1]==' ':
            ok=any(l.startswith(t,i) for t in ('→ ','∙ ','× ','≡ ','⊎ ','∷ '))
            if ok or (ch=='(' ) :
                key=(depth,-i+ (0 if ok else 15))
                if best is None or key<=best[0]: best=(key,i)
        if ch in '([{': depth+=1
        if ch in ')]}': depth-=1
    if not best: return [l]
    i=best[1]
    sig=bool(re.match(r'\s*(pub |abbrev |unfoldable )*[^\s:=]+ : ',l)) and ' = ' not in l[:60]
    eq=bool(re.match(r'\s*[^\s].* = ',l[:80])) and not l.lstrip().startswith('let')
    extra=4 if (sig or eq or l.lstrip()[:1] in '→∙×' and False) else 0
    if ind==0 and not extra: extra=4
    return [l[:i].rstrip(),' '*(ind+extra)+l[i:]]
for f in sys.argv[1:]:
    ls=open(f).read().split('\n');out=[]
    for l in ls:
        q=[l]
        k=0
        while q:
            x=q.pop(0)
            if len(x)>140 and k<6:
                y=brk(x);k+=1
                if y==[x]: out.append(x)
                else: q=y+q
            else: out.append(x)
    open(f,'w').write('\n'.join(out))
