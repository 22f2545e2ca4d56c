#!/usr/bin/env python3
"""stops.py ROOT [LOGS]: writes the table "where the prover first stops" of docs/PROMISES.md from the logs of the must-fail edits.
LOGS: a folder of CRATE.NAME.log; by default ROOT/target/must-fail/CRATE/NAME/.log, as `rt must-fail` and `rt ci` leave them.
Prints the edits that are refused by shape and those without a log; their old rows stay."""
import re,glob,os,sys
root=sys.argv[1]; logs=sys.argv[2] if len(sys.argv)>2 else None
SHAPE=re.compile(r'has no field|has no `Need-|not in scope|is not defined|unknown (name|field)|no such|is not a (field|member)|cannot be named')
def where(c,n):
    f=f'{logs}/{c}.{n}.log' if logs else f'{root}/target/must-fail/{c}/{n}/.log'
    if not os.path.exists(f) or not os.path.getsize(f): return None
    L=open(f,errors='replace').read().split('\n')
    errs=[l for l in L if ': error: ' in l and 'was not admitted' not in l]
    notes=[l for l in L if l.startswith('note: ') and 'it is not proved that' in l]
    first=(errs or notes or [''])[0]
    if not first or SHAPE.search(first): print('SHAPE',c,n,first[:150])
    m=re.match(r'(?:note: )?\S*/(src|specs|proofs)/(\S+?):\d+:\d+: (?:error: )?(.*)',first)
    if not m: print('UNREAD',c,n,first[:200]); return None
    kind,path,msg=m.groups(); q=re.match(r'`([^`]+)`',msg); need=q.group(1) if q else ''
    if not errs:  # a function without a proof file: the prover's own search stops
        n2=re.search(r'\(`([^`]+)`',msg); f2=next((re.match(r'fn \w+::(\w+): no proof',l) for l in L if re.match(r'fn \w+::\w+: no proof',l)),None)
        if n2 and f2: return f"`{f2.group(1)}`, `{n2.group(1)}`"
    mm=re.match(r'(\S+)/Proof\.antt',path)
    if mm: return f"`{mm.group(1).strip('+')}`, `{need}`"
    return f"`{need}` ({kind}/{path.rsplit('.',1)[0]})" if need else f"{kind}/{path}: {msg[:80]}"
p=f'{root}/docs/PROMISES.md'; s=open(p).read(); A='| edit | first error |\n|---|---|\n'
i=s.index(A)+len(A); j=i
while s[j:j+2]=='| ': j=s.index('\n',j)+1
old=dict(re.findall(r'^\| (\S+/\S+) \| (.*) \|$',s[i:j],re.M)); rows=[]; none=[]
for e in sorted(glob.glob(f'{root}/crates/*/must-fail/*.edit')):
    c=e.split('/')[-3]; n=os.path.basename(e)[:-5]; w=where(c,n) or old.get(f'{c}/{n}')
    if w: rows.append(f'| {c}/{n} | {w} |\n')
    else: none.append(f'{c}/{n}')
open(p,'w').write(s[:i]+''.join(rows)+s[j:])
print(len(rows),'rows; without a log:',*none)
