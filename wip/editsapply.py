import sys,os
repo=sys.argv[1]; n=0
for c in sorted(os.listdir(repo+'/crates')):
    d=f'{repo}/crates/{c}/must-fail'
    if not os.path.isdir(d): continue
    for e in sorted(os.listdir(d)):
        n+=1; texts={}; f=old=None
        for line in open(d+'/'+e).read().split('\n'):
            if line.startswith('file: '): f=line[6:]
            elif line.startswith('old: '): old=line[5:]
            elif line.startswith('new:'):
                new=line[4:]; new=new[1:] if new.startswith(' ') else new
                p=f'{repo}/crates/{c}/{f}'
                if not os.path.exists(p): print(c,e,'no file',f); break
                t=texts.get(f) or open(p).read()
                if t.count(old)!=1: print(c,e,t.count(old),'times',old[:80])
                texts[f]=t.replace(old,new)
print(n,'edits')
