import sys,re,textwrap
for p in sys.argv[1:]:
    L=open(p).read().split('\n'); out=[]; i=0
    while i<len(L):
        l=L[i]
        if not l.strip() or l.startswith('|') or l.startswith('#') or l.startswith('    '):
            out.append(l); i+=1; continue
        m=re.match(r'^(\s*)([-*]|\d+\.)?( ?)',l)
        # a block: this line and following that are continuation (not list start, blank, table, heading, code)
        j=i+1
        while j<len(L) and L[j].strip() and not L[j].startswith('|') and not L[j].startswith('#') and not re.match(r'^\s*([-*]|\d+\.) ',L[j]) : j+=1
        blk=L[i:j]
        if any(len(x)>140 for x in blk):
            lead=re.match(r'^(\s*(?:(?:[-*]|\d+\.) )?)',l).group(1)
            cont=' '*len(lead)
            if len(blk)>1: cont=re.match(r'^\s*',blk[1]).group(0)
            t=' '.join(x.strip() for x in blk)
            t=t[len(lead.strip()):].strip() if lead.strip() else t
            w=textwrap.wrap(t,139,initial_indent=lead,subsequent_indent=cont,break_long_words=False,break_on_hyphens=False)
            out+=w
        else: out+=blk
        i=j
    open(p,'w').write('\n'.join(out))
