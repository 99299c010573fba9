#!/usr/bin/env python3
"""laws_to_proofs.py CRATE MODULE..: moves modules of specs/ (as Row.Laws), and those of specs/ that import them, to proofs/, so that a
must-fail edit of a definition is refused by a theorem and not read as bad; names follow in all crates, paths in docs/. Run at the top."""
import sys,os,re,subprocess
crate=sys.argv[1]; mods=set(sys.argv[2:])
base=f'crates/{crate}'
def path(m): return f'{base}/specs/'+m.replace('.','/')+'.antt'
allm={}
for d,_,fs in os.walk(base+'/specs'):
    for f in fs:
        if f.endswith('.antt'):
            p=os.path.join(d,f); m=os.path.relpath(p,base+'/specs')[:-5].replace('/','.')
            if m!='Lib': allm[m]=open(p).read()
pre=f'Rattle.{crate}.specs.'
def imports(s):
    r=set()
    for x in re.findall(re.escape(pre)+r'([A-Za-z0-9_.]+?)(?:\.\{|\s|$)',s): r.add(x.rstrip('.'))
    return r
# a parent file names its children by themselves, as `use Again.{..}`
def uses(m,s):
    r=imports(s)
    for ch in re.findall(r'^\s*(?:pub )?mod (\w+)\s*$',s,re.M):
        if re.search(r'(?<![\w.])'+ch+r'\.',s): r.add(m+'.'+ch)
    return r
moved=set(mods)
while True:
    more={m for m,s in allm.items() if m not in moved and (uses(m,s)&moved or any(m.startswith(x+'.') for x in moved))}
    if not more: break
    moved|=more
print('moved:',' '.join(sorted(moved)))
# refuse where a moved module has definitions that a contract cites
for d,_,fs in os.walk(base+'/src'):
    for f in fs:
        s=open(os.path.join(d,f)).read()
        for x in imports(s)&moved: print('CONTRACT cites',x,'in',f)
def modlines(p): return [l for l in open(p).read().split('\n')]
def drop_mod(parent_file,child):
    L=modlines(parent_file); k=[l for l in L if not re.match(r'\s*(pub )?mod '+child+r'\s*$',l)]
    assert len(k)==len(L)-1,(parent_file,child)
    open(parent_file,'w').write('\n'.join(k))
def add_mod(parent_file,child):
    os.makedirs(os.path.dirname(parent_file),exist_ok=True)
    s=open(parent_file).read() if os.path.exists(parent_file) else ''
    if not re.search(r'^pub mod '+child+r'\s*$',s,re.M):
        open(parent_file,'w').write(s.rstrip('\n')+('\n' if s.strip() else '')+f'pub mod {child}\n')
def parentfile(root,m):
    ps=m.split('.')[:-1]
    return f'{base}/{root}/'+('/'.join(ps)+'.antt' if ps else 'Lib.antt')
for m in sorted(moved):
    new=f'{base}/proofs/'+m.replace('.','/')+'.antt'
    os.makedirs(os.path.dirname(new),exist_ok=True)
    kids=[k for k in allm if k.startswith(m+'.') and k not in moved]
    if kids: print('STAYS below a moved one:',kids)
    subprocess.check_call(['git','mv',path(m),new])
for m in sorted(moved):
    par='.'.join(m.split('.')[:-1])
    if par in moved: continue          # its mod line moved with the file
    drop_mod(parentfile('specs',m),m.split('.')[-1])
    # the chain of parents in proofs/
    ps=m.split('.')
    for i in range(len(ps)):
        add_mod(parentfile('proofs','.'.join(ps[:i+1])),ps[i])
# names, and paths in comments and pages
names=sorted(moved,key=len,reverse=True)
files=subprocess.run(['git','ls-files'],capture_output=True,text=True).stdout.split('\n')
n=0
for f in files:
    if '/out/' in f or not f.endswith(('.antt','.rt','.edit','.md')) or f.endswith(('CHANGES.md','PORT.md')) or not os.path.exists(f): continue
    s=open(f).read(); t=s
    for m in names:
        t=re.sub(re.escape(pre+m)+r'(?=\.[{]|\s|$|\.[a-z])',f'Rattle.{crate}.proofs.{m}',t)
        q=m.replace('.','/')+'.antt'
        t=t.replace(f'{crate}/specs/{q}',f'{crate}/proofs/{q}')
        if f.startswith(base+'/'): t=re.sub(r'(?<![\w/])specs/'+re.escape(q),'proofs/'+q,t)
    if t!=s: open(f,'w').write(t); n+=1
print('files with new names:',n)
