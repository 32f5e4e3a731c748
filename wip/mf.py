#!/usr/bin/env python3
"""mf.py REPO NAME[/LABEL].. : the must-fail edits of these crates alone, one by one, as rt tries them."""
import sys,os,shutil,subprocess,time,re
repo=sys.argv[1]; target=repo+'/target'; own=os.environ['RATTLE_ON']
deps={}
for l in open(repo+'/crates.txt'):
    l=l.strip()
    if l and not l.startswith('#'):
        n,d=l.split(':',1); deps[n]=d.split()
for a in sys.argv[2:]:
    name,_,only=a.partition('/')
    d=f'{repo}/crates/{name}'
    for e in sorted(os.listdir(d+'/must-fail')):
        label=e[:-5]
        if only and label!=only: continue
        w=f'{target}/must-fail/{name}/{label}'
        shutil.rmtree(w,ignore_errors=True); os.makedirs(w)
        for part in ('src','specs','proofs'):
            if os.path.isdir(f'{d}/{part}'): shutil.copytree(f'{d}/{part}',f'{w}/{part}')
        f=old=None; bad=''; n=0
        for line in open(f'{d}/must-fail/{e}').read().split('\n'):
            if line.startswith('file: '): f=line[6:]
            elif line.startswith('old: '): old=line[5:]
            elif line.startswith('new:'):
                new=line[4:]; new=new[1:] if new.startswith(' ') else new
                t=open(f'{w}/{f}').read()
                if t.count(old)!=1: bad=f'old text {t.count(old)} times in {f}: {old}'; break
                open(f'{w}/{f}','w').write(t.replace(old,new)); n+=1
        if bad or not n: print(name,label,'BAD EDIT',bad,flush=True); continue
        cmd=[own+'/bin/rattle','check','--crate-name',name,w+'/src/lib.rt','--extern',f'std={own}/rlib/std.rlib']
        for x in deps[name]: cmd+=['--extern',f'{x}={target}/rlib/{x}.rlib']
        cmd+=['-L',f'dependency={target}/rlib','-L',f'dependency={own}/rlib','--antt-project',os.environ['RATTLE_LOGIC']+'/antt-project.json','--logic-built',own+'/logic-built']
        t0=time.time()
        r=subprocess.run(cmd,stdout=open(w+'/.log','w'),stderr=subprocess.STDOUT)
        s=open(w+'/.log').read()
        errs=[x for x in s.split('\n') if ': error' in x]
        ok='refused' if r.returncode==1 and 'logic=not-proved' in s else ('NOT REFUSED' if r.returncode==0 else f'BAD exit {r.returncode}')
        print(f'{name}/{label}: {ok} ({time.time()-t0:.0f} s)',flush=True)
        for x in errs[:3]: print('    ',x.replace(w+'/','')[:260],flush=True)
