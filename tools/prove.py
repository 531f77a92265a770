# prove.py CRATE FILE [FN..] [--new]: write crates/CRATE/proofs/FN/Proof.antt for each section of an answers file (or for the FN named).
# A section starts with `== FN` (FN is f, or +f for a cycle of one function); then a comment line `-- ..`; lines that start with `|` are lemmas,
# invariants and measures (without the bar); then lines `NEED = TERM` (a line that starts with spaces goes on with the term before).
# @thing in a term stands for the path to that thing at that need. A need that is not named gets `search needs`. `NEED* = TERM` answers each
# need NEED, NEED-2, .. that has no line of its own. `use` lines are found by the names in the text.
import re,sys,subprocess,os,glob
import paths
args=[a for a in sys.argv[1:] if not a.startswith('--')]
crate,file=args[:2]; only=args[2:]
FIXED={
 'mathlib.Core.Path':['_≡_','refl','sym','ap','ap₂','subst','_∙_'],
 'mathlib.Core.Logic':['⊎-elim'],
 'mathlib.Core.Bool':['Bool','true','false','not','_&&_','_||_','cond','true≢false'],
 'mathlib.Core.List':['List','[]','_∷_','_++_','map','append-nil','append-assoc'],
 'mathlib.Core.Option':['Option','none','some'],
 'Prim.Native.Nat':['ℕ','zero','suc','_+_','_*_','_-_','_^_','_<_','_≤_'],
 'native.Mathlib.Omega':['arith'],
 'borrow.Author.Needs':['needs'],
 'borrow.Author.Tests':['eq-eqb','ne-eqb','eqb-true','eqb-false','lt-ltb','le-ltb','ltb-true','ltb-false','le-leb','lt-leb','not-true','not-false'],
 'lib.Dec':['T','eqb','ltb','leb'],
 'lib.ListN':['length','getD','take','drop','set','length-set','length-append','length-replicate'],
 'lib.Seq':['getD-set-same','getD-set-other','drop-cons','take-suc'],
}
D={}
def pubs(p,mod):
    t=open(p).read(); sec=False
    for m in re.finditer(r'(?m)^\s*(?:unfoldable |abbrev )*pub (?!mod |use |data |record )(\S+)(?: \{[^}]*\})? :',t):
        # a record's field is no name of the module
        D[m.group(1)]=mod
    for m in re.finditer(r'(?m)^pub (?:data|record) (\S+)',t): D[m.group(1)]=mod
    for m in re.finditer(r'(?m)^pub data (\S+).*where\n((?:  .*\n)+)',t):
        for l in m.group(2).split('\n'):
            k=re.match(r'  ([^:]*) :',l)
            if k and 'deriving' not in l:
                for c in k.group(1).split(): D[c]=mod
def fields(p):
    t=open(p).read(); r=set()
    for m in re.finditer(r'(?m)^( *)pub record \S+.*where\n((?:\1  .*\n|\n)+)',t):
        for k in re.finditer(r'(?m)^\s*pub (\S+) :',m.group(2)): r.add(k.group(1))
    return r
deps=dict(l.strip().split(':') for l in open('crates.txt') if ':' in l and not l.startswith('#'))[crate].split()+[crate]
for c in deps:
    for kind in ('specs','proofs'):
        for p in sorted(glob.glob(f'crates/{c}/{kind}/*.antt')):
            n=os.path.basename(p)[:-5]
            if n=='Lib': continue
            mod=(f'Rattle·{c}·{kind}.{kind}.{n}' if c==crate else f'Rattle·{c}.{kind}.{n}')
            before=dict(D); pubs(p,mod); f=fields(p)
            for x in f:
                if D.get(x)==mod and x not in before: del D[x]
                elif x in before: D[x]=before[x]
for t in ('Node','JoinType','JoinNode','ScanNode') if 'tree' in deps else ():
    D[t]=f'Rattle·tree.specs.declared.{t}'
if 'lookup' in deps: D['Sides']='Rattle·lookup.specs.declared.Sides'
for m,ns in FIXED.items():
    for n in ns: D[n]=m
def uses(text,have):
    toks=set(re.split(r'[\s(){},;.]+',re.sub(r'(?m)--.*$','',text)))
    need={}
    bound=set(re.findall(r'let (\S+)',text))|have
    for n,m in D.items():
        parts=[x for x in n.split('_') if x] if n.startswith('_') or n.endswith('_') else [n]
        if (n in toks or (n.startswith('_') and all(x in toks or x+'_' in toks or '_'+x in toks for x in parts))) and n not in bound: need.setdefault(m,[]).append(n)
    return [f"use {m}.{{{', '.join(sorted(ns))}}}" for m,ns in sorted(need.items())]
# a line `%NAME = TEXT` before the first section: %NAME stands for TEXT in every answer
MACROS={}
secs={}; cur=None
for l in open(file).read().split('\n'):
    m=re.match(r'%(\w+) = (.*)',l)
    if m: MACROS[m.group(1)]=re.sub(r'%(\w+)',lambda q: MACROS[q.group(1)],m.group(2)); continue
    l=re.sub(r'%(\w+)',lambda m: MACROS[m.group(1)],l)
    m=re.match(r'== (\S+)',l)
    if m: cur=m.group(1); secs[cur]=[]
    elif cur: secs[cur].append(l)
def build(fn,lines):
    comment=[l for l in lines if l.startswith('--')]; lem='\n'.join(l[2:] if l.startswith('| ') else l[1:] for l in lines if l.startswith('|')).strip()
    answers={}; last=None
    for l in lines:
        if not l.strip() or l[0] in '#|-': continue
        if l.startswith(' '): answers[last]+='\n'+l.strip()
        else:
            last,t=l.split(' = ',1); last=last.strip(); answers[last]=t.strip()
    proof=f'crates/{crate}/proofs/{fn}/Proof.antt'; skel=f'target/skel-{crate}-{fn}.antt'; lts=f'target/lts-{crate}-{fn}.antt'
    s=open(skel).read(); L=open(lts).read(); recs=paths.records(L); place=paths.needs(L)
    cyc=fn.startswith('+'); body=''
    if cyc:
        f=re.search(r'abbrev μ-(\S+) :',s).group(1); k=re.search(r'Measures (\d+) ',s).group(1)
        tup=re.search(r'Need-\S+ \((.*?)\n?\) \(%s-at t\)'%re.escape(f),s,re.S).group(1).strip().rstrip(',')
        below=f'and {k} {f}-kinds.ps (falls {k} {f}-kinds.ps _<_ μ t) {f}.Pre'
        parts=[below if x.strip()==f'{f}-below t' else x.strip() for x in tup.split(',')]
        needs=re.findall(r'\n%s-(\S+) :\s*\(t : ℕ\)\s*→\s*%s-lts\.(Need-\S+)'%(re.escape(f),re.escape(f)),s)
        us=[l.replace(f'as {f}-lts','as lts') for l in s.split('\n') if l.startswith('use ') and 'Prim.Native.Nat' not in l]
        ind='  '
        body+=f'abbrev μ : Measures {k} {f}-kinds.ps ℕ\nμ κs a = {answers.pop("μ")}\n\n-- what it is given at the measure t, and what its callees ask and give, itself below t\nabbrev given : ℕ → In {k} {f}-kinds.ps\ngiven t = and {k} {f}-kinds.ps (is {k} {f}-kinds.ps μ t) {f}.Pre\n\nabbrev callees : ℕ → lts.Claims\ncallees t = ({", ".join(parts)})\n\n'
        body+=(lem+'\n\n' if lem else '')+'module _ (t : ℕ) where\n'
    else:
        needs=re.findall(r'\n(\S+) :\s+tie\.(Need-\S+)',s); f=None
        loops=' '+' '.join(x for m in re.findall(r'abbrev (Inv-\S+) :',s) for x in (m,m.replace('Inv-','μ-'))) if 'abbrev Inv-' in s else ''
        us=[l for l in s.split('\n') if l.startswith('use ') and not re.search(r'as (reads|lts|\S+-reads)$',l) and 'needs}' not in l]
        ind=''; body+=(lem+'\n\n' if lem else '')
    used=set()
    for n,N in needs:
        base=re.sub(r'-\d+$','',n)
        key=n if n in answers else (base+'*' if base+'*' in answers else None)
        if key: used.add(key)
        t=answers[key] if key else 'search needs'
        P={}; names=[]
        for field,path,_ in paths.paths(recs,place[N[5:]]): P.setdefault(field,path)
        for x in re.findall(r'@([\w-]*\w)',t):
            assert x in P,(fn,n,x,list(P))
            if x not in names: names.append(x)
        t=re.sub(r'@([\w-]*\w)',r'\1',t)
        req=' κs' if re.search(r'requires(-\d+)?$',n) else ''
        sig=f'lts.{N} (callees t) (given t) {f}.Post' if cyc else f'tie.{N}{loops}'
        body+=f'{ind}{n} : {sig}\n'
        mm=re.match(r'unfolding ([^;]*);\s*',t)
        if mm: body+=f'{ind}unfolding {mm.group(1)}\n'; t=t[mm.end():]
        if names or '\n' in t:
            body+=f'{ind}{n} c{req} =\n'+''.join(f'{ind}    let {x} = {P[x]} in\n' for x in names)+''.join(f'{ind}    {l}\n' for l in t.split('\n'))+'\n'
        else: body+=f'{ind}{n} c{req} = {t}\n\n'
    if set(answers)-used: print('unused',fn,set(answers)-used)
    if cyc:
        body+=f'pub +{f}-spec : {{M : Type 1}} → statement M\n+{f}-spec = close μ λ t.\n    lts.spec (callees t) (given t) {f}.Post\n    '+' '.join(f'({n} t)' for n,_ in needs)+'\n'
    else:
        g=re.search(r'\npub (\S+)-spec :',s).group(1)
        body+=f'pub {g}-spec : {{M : Type 1}} → statement M\n{g}-spec = tie.close (tie.spec{loops} {" ".join(n for n,_ in needs)})\n'
    have={'given','callees','close','is','and','falls','tie','lts','statement','args','pre','loop','before','spec'}|set(n for n,_ in needs)|set(re.findall(r'(?m)^(\S+) : ',lem))
    for l in lem.split('\n'):
        if re.match(r'(Inv|μ)-loop\S* \S',l) and ' = ' in l: have|=set(l.split(' = ')[0].split())
    o='\n'.join(comment)+'\n'+'\n'.join(uses(body,have))+'\n'+'\n'.join(us)+'\n\n'+body
    os.makedirs(os.path.dirname(proof),exist_ok=True); open(proof,'w').write(o); print('wrote',proof,o.count('\n'),'lines,',len(needs),'needs')
for fn,lines in secs.items():
    if only and fn not in only: continue
    if not os.path.exists(f'target/skel-{crate}-{fn}.antt'): print('no skeleton yet:',fn); continue
    build(fn,lines)
