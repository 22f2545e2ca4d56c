#!/usr/bin/env python3
"""shelve.py ROOT [--imports]: moves definitions that the calls' contracts do not rest on to other files of specs/, and rewrites the imports of all crates.
--imports: only rewrite the imports (for trees that were merged after the move)."""
import re,sys,os
root=sys.argv[1]; only='--imports' in sys.argv
# (crate, old module, new module): names
MOVES={
 ('forms','Forms','code.Constructs'):['markIn','spelt','headed','listedRest','laidItems','inBars','inAngles'],
 ('forms','Forms','Sizes'):['treeRoom','Fitting','FittingAll'],
 ('records','Stored','code.Narrow'):['two','span','header','stored','storedAll','Kinds','KindsAll'],
 ('records','Stored','Spans'):['unspelled','unspelledAll'],
 ('records','Tree','Spans'):['startOf','endOf','Nested','Within'],
 ('grammar','Items','RefusalSets'):['faultRefusals'],
 ('calls','Calls','RefusalSets'):['itemRefusals','displayRefusals'],
 ('tokens','Refusals','RefusalSets'):['among','lexRefusals','tokenRefusals','commentRefusals'],
}
# moved by hand; None: every name of the module
BY_HAND={
 ('grammar','Items','Raise'):['ofText'],
 ('grammar','Items','code.Edition'):['inEdition'],
 ('carried','Carry','Promised'):['carryRefusals'],
 ('sources','Source','code.Answered'):['answerOf'],
 ('sources','Raise','code.Raise'):['raiseScanned'],
 ('answers','Raise','code.Raise'):None,
 ('starts','Step','code.Step'):None,
 ('buffer','Written','code.Written'):None,
 ('frames','Related','code.Related'):None,
 ('frames','Shape','code.Shape'):None,
}
ALL={**MOVES,**BY_HAND}
def imports():
    for d,_,fs in os.walk(os.path.join(root,'crates')):
        for f in fs:
            if not f.endswith(('.antt','.rt')): continue
            p=os.path.join(d,f); s=o=open(p,encoding='utf-8').read(); out=[]
            for l in s.split('\n'):
                m=re.match(r'^((?:ghost |unfoldable pub )?use )(Rattle·([a-z_]+)(?:·specs)?\.specs)\.([A-Za-z.]+)\.\{([^}]*)\}(;?)$',l)
                if not m: out.append(l); continue
                pre,base,crate,mod,names,semi=m.groups(); names=[n.strip() for n in names.split(',')]
                parts={}
                for n in names:
                    b=n.split(' as ')[0].strip(); to=mod
                    for (c,om,nm),ns in ALL.items():
                        if c==crate and om==mod and (ns is None or b in ns): to=nm
                    parts.setdefault(to,[]).append(n)
                if set(parts)=={mod}: out.append(l); continue
                for to in sorted(parts,key=lambda t:(t!=mod,t)):
                    # merge with an import of the same module that stands already
                    out.append(f"{pre}{base}.{to}.{{{', '.join(parts[to])}}}{semi}")
            # merge duplicates
            seen={}; res=[]
            for l in out:
                m=re.match(r'^((?:ghost |unfoldable pub )?use )(Rattle·[a-z_]+(?:·specs)?\.specs\.[A-Za-z.]+)\.\{([^}]*)\}(;?)$',l)
                if m and (m.group(1),m.group(2)) in seen:
                    i=seen[(m.group(1),m.group(2))]; mm=re.match(r'^(.*\.\{)([^}]*)(\};?)$',res[i]); have=[x.strip() for x in mm.group(2).split(',')]
                    add=[x.strip() for x in m.group(3).split(',') if x.strip() not in have]
                    res[i]=mm.group(1)+', '.join(have+add)+mm.group(3)
                else:
                    if m: seen[(m.group(1),m.group(2))]=len(res)
                    res.append(l)
            s='\n'.join(res)
            # full paths in text
            for (c,om,nm),ns in ALL.items():
                if ns is None: s=re.sub(r'(Rattle·'+c+r'(?:·specs)?\.specs)\.'+om+r'\.(?=[\w{_])',r'\1.'+nm+'.',s)
                for n in ns or []:
                    s=re.sub(r'(Rattle·'+c+r'(?:·specs)?\.specs)\.'+om+r'\.'+n+r"(?![\w'])",r'\1.'+nm+'.'+n,s)
            if s!=o: open(p,'w',encoding='utf-8').write(s)
if only: imports(); sys.exit()
def blockof(lines,names):
    """line ranges of the definitions of names, with the comment lines directly above, and whole mutual blocks"""
    take=[False]*len(lines); i=0
    while i<len(lines):
        l=lines[i]
        # a block: comments, then a signature or 'unfoldable mutual'
        j=i
        while j<len(lines) and lines[j].startswith('--'): j+=1
        if j<len(lines):
            h=lines[j]; k=j+1
            if re.match(r'(unfoldable )?mutual',h):
                while k<len(lines) and (lines[k].startswith(' ') or (not lines[k].strip() and k+1<len(lines) and lines[k+1].startswith('  '))): k+=1
                ns=re.findall(r'^  pub (\S+) :','\n'.join(lines[j:k]),flags=re.M)
            else:
                m=re.match(r'(?:unfoldable |abbrev )?(?:pub )?(\S+) :',h); ns=[m.group(1)] if m else []
                while k<len(lines) and lines[k].strip() and not lines[k].startswith('--') and not re.match(r'(unfoldable|abbrev|pub|mutual)\b',lines[k]): k+=1
            if ns and ns[0] in names:
                e=k
                for q in range(i,e): take[q]=True
                i=e; continue
            i=max(k,i+1)
        else: i+=1
    return take
heads={
 ('forms','code.Constructs'):"-- What the constructs are made of as they are laid down: marks, leaves, a head in front of bytes, the items of a list, lists in marks.",
 ('forms','Sizes'):"-- Room for a tree, and that each number of a tree's records fits its bytes.",
 ('records','code.Narrow'):"-- The narrow form in its own words: length, kind, start and end of each record in two bytes each, the low one first, then its children.",
 ('records','Spans'):"-- Where trees start and end, that spans are nested, and a tree as its records show it.",
 ('grammar','RefusalSets'):"-- The numbers that only the faults of a call have.",
 ('calls','RefusalSets'):"-- The refusals that a read and a display can meet.",
 ('tokens','RefusalSets'):"-- Sets of refusals, and those that a token call and a comment call can meet.",
}
new={}
for (c,om,nm),ns in MOVES.items():
    p=f'{root}/crates/{c}/specs/{om}.antt'; lines=open(p).read().split('\n')
    t=blockof(lines,set(ns))
    body=[l for l,x in zip(lines,t) if x]; rest=[l for l,x in zip(lines,t) if not x]
    got=re.findall(r'^(?:  pub |(?:unfoldable |abbrev )?(?:pub )?)(\S+) :','\n'.join(body),flags=re.M)
    print(c,om,nm,[n for n in ns if n not in got] or 'all')
    # paragraphs apart
    txt=[]; prevc=False
    for l in body:
        if (l.startswith('--') or re.match(r'(unfoldable|abbrev|pub|mutual)\b',l)) and txt and txt[-1].strip() and not txt[-1].startswith('--'): txt.append('')
        txt.append(l)
    new.setdefault((c,nm),[]).append((om,'\n'.join(txt).strip('\n')))
    r='\n'.join(rest); r=re.sub(r'\n{3,}','\n\n',r).rstrip('\n')+'\n'; open(p,'w').write(r)
for (c,nm),parts in new.items():
    p=f'{root}/crates/{c}/specs/{nm.replace(".","/")}.antt'; os.makedirs(os.path.dirname(p),exist_ok=True)
    uses=[]; 
    for om,_ in parts:
        for l in open(f'{root}/crates/{c}/specs/{om}.antt').read().split('\n'):
            if l.startswith('use ') and l not in uses: uses.append(l)
    body='\n\n'.join(b for _,b in parts)
    # own module's names
    for om,_ in parts:
        src=open(f'{root}/crates/{c}/specs/{om}.antt').read()
        own=[n for n in re.findall(r'^(?:  pub |(?:unfoldable |abbrev )?pub )(?:data |record )?(\S+) [:(]',src,flags=re.M)]+re.findall(r'^\s{2,4}(\S+) : [^=\n]*(?:Tree|Trees|Build|Builds|Item)\s*$',src,flags=re.M)
        need=[n for n in dict.fromkeys(own) if re.search(r"(?<![\w'.])"+re.escape(n)+r"(?![\w'])",body)]
        if need: uses.append(f"use Rattle·{c}·specs.specs.{om}.{{{', '.join(need)}}}")
    if os.path.exists(p): body=open(p).read().rstrip('\n')+'\n\n'+body; open(p,'w').write(body+'\n')
    else: open(p,'w').write(heads[(c,nm)]+'\n'+'\n'.join(uses)+'\n\n'+body+'\n')
    mod=nm.split('.')[-1]; lib=f'{root}/crates/{c}/specs/'+('code.antt' if nm.startswith('code.') else 'Lib.antt')
    if nm.startswith('code.') and not os.path.exists(lib):
        open(lib,'w').write('-- The words that only inner contracts and laws use.\n')
        L=f'{root}/crates/{c}/specs/Lib.antt'; t=open(L).read()
        if 'pub mod code' not in t: open(L,'w').write(t.rstrip('\n')+'\npub mod code\n')
    t=open(lib).read()
    if f'pub mod {mod}\n' not in t:
        if lib.endswith('Lib.antt') and 'pub mod code\n' in t: t=t.replace('pub mod code\n',f'pub mod {mod}\npub mod code\n')
        else: t=t.rstrip('\n')+f'\npub mod {mod}\n'
        open(lib,'w').write(t)
imports()
