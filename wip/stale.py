#!/usr/bin/env python3
"""stale.py ROOT: imports of names of specs/ that their module does not define (after a merge: run shelve.py ROOT --imports first)"""
import re,sys,os,glob
root=sys.argv[1]; bad=0; cache={}
def defined(c,mod):
    k=(c,mod)
    if k not in cache:
        p=f'{root}/crates/{c}/specs/{mod.replace(".","/")}.antt'
        cache[k]=open(p).read() if os.path.exists(p) else None
    return cache[k]
for p in glob.glob(root+'/crates/*/**/*.antt',recursive=True)+glob.glob(root+'/crates/*/**/*.rt',recursive=True):
    for i,l in enumerate(open(p),1):
        m=re.match(r'^(?:ghost |unfoldable pub )?use Rattle·([a-z_]+)(?:·specs)?\.specs\.([A-Za-z.]+)\.\{([^}]*)\};?$',l.rstrip('\n'))
        if not m or 'declared' in m.group(2): continue
        c,mod,names=m.groups(); t=defined(c,mod)
        if t is None: print(f'{p}:{i}: no module {c}.{mod}'); bad=1; continue
        for n in names.split(','):
            n=n.split(' as ')[0].strip()
            if not re.search(r"(?<![\w'.·-])"+re.escape(n)+r"(?![\w'-])(?: [^\n]*)? ?[:({]",t): print(f'{p}:{i}: {c}.{mod} has no {n}'); bad=1
sys.exit(bad)
