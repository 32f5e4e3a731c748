import os,sys,subprocess,shutil,time
repo=sys.argv[1]; os.chdir(repo)
for c in sys.argv[2:]:
    d='target/inc/'+c
    shutil.rmtree(d,ignore_errors=True)
    t0=time.time()
    p=subprocess.run(['rt','dev',c],stdout=subprocess.PIPE,stderr=subprocess.STDOUT,text=True)
    t1=time.time()
    fs=[]
    for r,ds,ff in os.walk(d):
        for f in ff:
            q=os.path.join(r,f); fs.append((os.stat(q).st_mtime,f))
    fs.sort(); prev=t0; tot={}
    for m,f in fs:
        k=f.replace('.decls.oantt','').replace('.oantt','').replace('·proofs.proofs','.P').replace('·specs.specs','.S').replace('Rattle·','')
        tot[k]=tot.get(k,0)+m-prev; prev=m
    # group by function
    g={}
    for k,v in tot.items():
        kk=k
        for suf in ('.Lts','.Tie','.Proof','.Statement','.Code','.Reads','.Met','.Key','.Symbol'):
            if kk.endswith(suf): kk=kk[:-len(suf)]
        g[kk]=g.get(kk,0)+v
    print('== %s %.1f %s'%(c,t1-t0,p.stdout.strip().split('\n')[-1][:60]))
    for k,v in sorted(g.items(),key=lambda x:-x[1])[:int(os.environ.get('N','22'))]: print('   %.2f %s'%(v,k))
    sys.stdout.flush()
