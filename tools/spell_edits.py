#!/usr/bin/env python3
"""Turns the texts of crates/*/must-fail/*.edit that stand in specs/ or proofs/ to the spelling that port.py and tools/spell.py give those files. Run once, after both."""
import glob,os,re,sys
root=os.getcwd()
def snake(n):
    n=re.sub(r'(?<=[a-z0-9])(?=[A-Z])','_',n)
    return n.lower().replace('-','_').replace('′',"'")
lib={'trailingZeros':'count_trailing_zeros','getD':'get_or','bitOr':'bit_or'}
TOK=re.compile(r"[^\s(){}\[\],;.«»\"`:]+")
def conv(s,f):
    if f.endswith('.rt'): return s
    s=re.sub(r"(?<=[\w')]) \.(?=[A-Za-z])",'.',s)
    s=re.sub(r"\(([\w']+(?:\.\w+)+)\)",r"\1",s)
    def rep(m):
        w=m.group(0)
        if w in lib: return lib[w]
        if w[0].islower() and (re.search(r'[a-z0-9][A-Z]',w) or re.search(r'[a-z]-[a-z]',w)): return snake(w)
        return w.replace('′',"'")
    return TOK.sub(rep,s)
for p in sorted(glob.glob(root+'/crates/*/must-fail/*.edit')):
    crate=p.split('/must-fail/')[0]
    L=open(p).read().split('\n'); f=None; out=[]
    for l in L:
        if l.startswith('file:'): f=l[5:].strip()
        if l.startswith(('old:','new:')) and f: l=l[:4]+conv(l[4:],f)
        out.append(l)
    t='\n'.join(out)
    if t!=open(p).read():
        print(p[len(root)+8:]); open(p,'w').write(t)
