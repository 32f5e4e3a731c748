import sys,os,subprocess,resource,time
d=sys.argv[1]; only=sys.argv[2:]
os.chdir(d)
order="spec running laws walks loading memory utf8 literal line trie packing builder vocabulary encoding decoding stream rwkv_tokenizer demands cases examples streams replay".split()
env=dict(os.environ, RT_JOBS='1')
for c in (only or order):
    r0=resource.getrusage(resource.RUSAGE_CHILDREN); t=time.time()
    p=subprocess.run(['rt','check',c],stdout=subprocess.PIPE,stderr=subprocess.STDOUT,env=env,text=True)
    r1=resource.getrusage(resource.RUSAGE_CHILDREN)
    print(c, 'cpu %.1f'%(r1.ru_utime-r0.ru_utime), 'wall %.1f'%(time.time()-t), p.returncode, p.stdout.strip().split('\n')[-1], flush=True)
