#!/usr/bin/env python3
"""Drops the answers of a crate that the check finds alone: takes all away, checks, and puts back those that are missed.

    tools/prune_answers.py TOP CRATE
"""
import os,re,subprocess,sys,glob,shutil,time
top,crate=sys.argv[1:3]
c=f'{top}/crates/{crate}'
def check(*a):
    p=subprocess.run(['rt','check',*a],cwd=c,capture_output=True,text=True); return p.returncode,p.stdout+p.stderr
def split(text):
    """header lines, blocks"""
    lines=text.split('\n'); head=[];i=0
    while i<len(lines) and (lines[i].startswith('use ') or lines[i].startswith('--') or lines[i].startswith('pub use') or lines[i].strip()=='' ): head.append(lines[i]); i+=1
    blocks=[];cur=[]
    for l in lines[i:]:
        if l.strip()=='' :
            if cur: cur.append(l)
            continue
        if not l.startswith((' ','\t')) and cur and any(x.strip()=='' for x in cur[-1:]):
            blocks.append(cur); cur=[]
        cur.append(l)
    if cur: blocks.append(cur)
    return head,blocks
def goal_of(b):
    for l in b:
        m=re.match(r'(?:pub )?([^\s:]+) : goal\.([^\s]+)\s*$',l)
        if m and m.group(1)==m.group(2): return m.group(1)
        if not l.startswith('--'): break
    return None
files=sorted(glob.glob(f'{c}/proofs/**/Answers.antt',recursive=True))
saved={f:open(f).read() for f in files}
parsed={}
for f in files:
    h,b=split(saved[f]); gs=[goal_of(x) for x in b]
    parsed[f]=(h,b,gs)
    helpers=[x for x,g in zip(b,gs) if g is None]
    rest='\n'.join(h).rstrip('\n')+'\n\n'+'\n'.join('\n'.join(x).rstrip('\n')+'\n' for x in helpers)
    if helpers: open(f,'w').write(rest)
    else: os.remove(f)
t=time.time()
rc,out=check('--allow-holes')
need={}
for m in re.finditer(r'^fn (\S+): no proof: (.*)$',out,re.M):
    name,what=m.groups()
    gs=set(re.findall(r'`([^`]+)`',what.split('did not prove')[1])) if 'did not prove' in what else None
    p=re.search(r'\./(proofs/\S+)/Answers\.antt',what)
    need[p.group(1) if p else name]=gs
def rel(f): return os.path.relpath(os.path.dirname(f),c)
dropped=kept=0
for f in files:
    h,b,gs=parsed[f]
    r=rel(f)
    # not proved at all or waiting for a callee: keep all
    state=None
    if r in need: state=need[r]
    else:
        state='proved' if re.search(r'',out) else None
    if state is None: open(f,'w').write(saved[f]); kept+=len([g for g in gs if g]); continue
    wanted=set() if state=='proved' else state
    keep=[x for x,g in zip(b,gs) if g is None or g in wanted]
    dropped+=len([g for g in gs if g and g not in wanted]); kept+=len([g for g in gs if g and g in wanted])
    if not keep:
        if os.path.exists(f): os.remove(f)
    else:
        open(f,'w').write('\n'.join(h).rstrip('\n')+'\n\n'+'\n'.join('\n'.join(x).rstrip('\n')+'\n' for x in keep))
print(crate,'first',round(time.time()-t),'s; dropped',dropped,'kept',kept,flush=True)
t=time.time()
for turn in range(6):
    rc,out=check('--allow-holes')
    bad=set()
    for m in re.finditer(r'^fn (\S+): (no proof|not proved)(.*)$',out,re.M):
        p=re.search(r'\./(proofs/\S+)/Answers\.antt',m.group(3))
        if p: bad.add(p.group(1))
        else:
            q='proofs/'+'/'.join(m.group(1).split('::')[1:])
            bad.add(q)
    fixed=0
    for f in files:
        r=rel(f)
        if r in bad and (not os.path.exists(f) or open(f).read()!=saved[f]):
            open(f,'w').write(saved[f]); fixed+=1
    if not fixed: break
    print('  restored',fixed,sorted(bad)[:5])
rc,out=check()
print(crate,'second',round(time.time()-t),'s; rc',rc,[l for l in out.split('\n') if 'error' in l or 'no proof' in l or 'not proved' in l][:5],flush=True)
