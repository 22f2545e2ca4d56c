#!/usr/bin/env python3
"""rest.py ROOT [CRATE...]: for each definition of specs/ (not code) says whether the contracts of station reach it.
Prints those that they do not reach; --files prints for each file how many lines are reached and not."""
import re,sys,glob
args=[a for a in sys.argv[1:] if not a.startswith('--')]; root=args[0]; want=args[1:]; byfile='--files' in sys.argv
W=re.compile(r"[^\s(){}\.;,λ\"]+")
files={}
for f in sorted(glob.glob(root+'/crates/*/specs/**/*.antt',recursive=True)):
    rel=f[len(root.rstrip('/'))+8:]; crate=rel.split('/')[0]; mod=rel.split('/specs/')[1][:-5].replace('/','.')
    if mod in('Lib','code'): continue
    files[(crate,mod)]=open(f).read()
def imports(text):
    m={}
    for u in re.finditer(r"^(?:unfoldable pub |pub |ghost )*use (?:Rattle·(\w+)(?:·specs)?\.specs\.([\w.·-]+?))\.\{(.*?)\}",text,re.M):
        c,mod,names=u.groups()
        for n in names.split(','):
            n=n.strip()
            a,b=(n.split(' as ') if ' as ' in n else (n,n))
            m[b.strip()]=(c,mod,a.strip())
            if b.strip().startswith('_'):
                for part in b.strip().split('_'):
                    if part: m[part]=(c,mod,a.strip())
    return m
table={}; size={}
def sub(defs):  # names that a block declares
    out=[]
    for l in defs:
        m=re.match(r"\s*(?:unfoldable |abbrev )?(?:pub )?(?:data |record )?(\S+) (?:[:(].*)",l)
        if m: out.append(m.group(1))
    return out
for (c,mod),t in files.items():
    imp=imports(t); blocks=[]; inmod=False
    for line in t.split('\n'):
        if line.startswith('module '): inmod=True; continue
        if line.strip() and not line.startswith(' '): inmod=False
        if inmod: line=line[2:]
        if line.startswith('--') or not line.strip() or re.match(r'(unfoldable pub )?use ',line): continue
        if re.match(r"(abbrev|unfoldable|pub|mutual)\b",line): blocks.append([line])
        elif blocks: blocks[-1].append(line)
    local={}
    for i,b in enumerate(blocks):
        h=b[0]
        if re.match(r"(unfoldable )?mutual",h):
            for l in b[1:]:
                m=re.match(r"  (?:pub )(?:data |record )?(\S+) ",l) or re.match(r"    (\S+) : ",l)
                if m: local[m.group(1)]=i
        else:
            m=re.match(r"(?:abbrev |unfoldable )?(?:pub )?(?:data |record )?(\S+)",h); local[m.group(1)]=i
            if re.search(r'\b(data|record) ',h):
                for l in b[1:]:
                    m=re.match(r"  (?:pub )?(\S+) :",l)
                    if m: local[m.group(1)]=i
        n=[k for k,v in local.items() if v==i]
    names={}
    for n,i in local.items():
        names.setdefault(i,[]).append(n)
        if n.startswith('_') :
            for p in n.split('_'):
                if p: local.setdefault
    ops={}
    for n,i in list(local.items()):
        if n.startswith('_') or n.endswith('_'):
            for p in n.split('_'):
                if p: ops[p]=i
    for i,b in enumerate(blocks):
        deps=set()
        for w in W.findall('\n'.join(b)):
            j=local.get(w,ops.get(w))
            if j is not None:
                if j!=i: deps.add((c,mod,names[j][0]))
            elif w in imp: deps.add(imp[w])
        head=names[i][0]
        table[(c,mod,head)]=deps; size[(c,mod,head)]=len(b)
        for n in names[i][1:]: table[(c,mod,n)]={(c,mod,head)}
    for b,tgt in imp.items(): table.setdefault((c,mod,b),{tgt})
st=open(root+'/crates/station/src/lib.rt').read()
seen=set(); todo=list(imports(st).values())
if '--theorems' in sys.argv: todo+=[k for k in table if k[:2] in {('roundtrip','Theorems'),('starts','Allowed'),('carried','Promised'),('largest','Statements'),('token_program','Printed')}]
while todo:
    x=todo.pop()
    if x in seen: continue
    seen.add(x); todo+=list(table.get(x,()))
if byfile:
    for (c,mod) in files:
        if mod.startswith('code'): continue
        a=sum(s for k,s in size.items() if k[:2]==(c,mod) and k in seen); b=sum(s for k,s in size.items() if k[:2]==(c,mod) and k not in seen)
        print(f"{c}/{mod}: {files[(c,mod)].count(chr(10))} lines; reached {a}, not {b}", *[k[2] for k in size if k[:2]==(c,mod) and k not in seen] if a else '')
else:
    for k in sorted(size):
        if (not want or k[0] in want) and not k[1].startswith('code') and k not in seen: print(*k,size[k])
for k in sorted(size):
    if k[1].startswith('code') and k in seen: print('IN CODE BUT REACHED',*k)
