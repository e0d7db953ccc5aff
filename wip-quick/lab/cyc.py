#!/usr/bin/env python3
# cyc.py CRATE ANSWERS RANKS [--dummy]: the proof of the crate's one cycle, from target/goals (rt dev CRATE --generated target/goals/CRATE) and answers
import sys, re, os, glob, importlib.machinery
crate, answers, ranks = sys.argv[1:4]
os.chdir('.')
prove = importlib.machinery.SourceFileLoader('prove','tools/prove').load_module()
rank={}
for l in open(ranks):
    if l.strip(): a,b=l.split(); rank[a]=b
src=open('crates/%s/src/lib.rt'%crate).read()
fns=re.findall(r'(?m)^(?:pub )?fn (\w+)',src)
members=sorted(f for f in fns if f in rank)
cyc='+'+'+'.join(members)
d='crates/%s/proofs/%s'%(crate,cyc)
base='Rattle·%s·proofs.proofs.%s'%(crate,cyc)
ln=lambda m: m.replace('_','-')
spec='+'+'+'.join(ln(m) for m in members)+'-spec'
if len(sys.argv)>4:
    for x in glob.glob('crates/%s/proofs/+*'%crate):
        if x!=d: os.system('rm -rf "%s"'%x)
    os.makedirs(d,exist_ok=True)
    open(d+'/Proof.antt','w').write('use %s.{statement}\n\npub %s : {M : Type 1} → statement M\n%s = ?\n'%(base,spec,spec))
    for f in fns:
        if f not in rank:
            os.makedirs('crates/%s/proofs/%s'%(crate,f),exist_ok=True)
            p='crates/%s/proofs/%s/Proof.antt'%(crate,f)
            if not os.path.exists(p): open(p,'w').write('use Rattle·%s·proofs.proofs.%s.Statement.{statement}\n\npub %s-spec : {M : Type 1} → statement M\n%s-spec = ?\n'%(crate,f,ln(f),ln(f)))
    print('dummy',cyc); sys.exit()
ans={}; cur=None
for line in open(answers).read().split('\n'):
    if line.startswith('== '): cur=line[3:].strip(); ans[cur]={'use':[],'ans':{},'last':None}
    elif not line.strip() or line.startswith('#'): continue
    elif re.match(r'use |abbrev |Inv-loop |μ-loop ',line): ans[cur]['use'].append(line); ans[cur]['last']=None
    elif line.startswith(' '):
        if ans[cur]['last'] is None: ans[cur]['use'][-1]+='\n'+line
        else: ans[cur]['ans'][ans[cur]['last']][1]+='\n'+line
    else:
        m=re.match(r'([\w·-]+)(?: unfolding ([^:]*))?: (.*)$',line); ans[cur]['ans'][m.group(1)]=[m.group(2),m.group(3)]; ans[cur]['last']=m.group(1)
leafmod={}
for c in open('crates.txt'):
    pass
def modof(x):   # x with underscores
    if x in fns: return 'Rattle·%s·proofs.proofs.%s'%(crate,x)
    for c in ('eval_state','eval_tables'):
        if os.path.exists('crates/%s/src/lib.rt'%c) and re.search(r'(?m)^pub fn %s\('%x,open('crates/%s/src/lib.rt'%c).read()): return 'Rattle·%s.proofs.%s'%(c,x)
    raise Exception(x)
n='7'
os.makedirs(d+'/Proof',exist_ok=True)
for f in glob.glob(d+'/Proof/*'): os.remove(f)
o=['-- What falls at each call of the cycle: the levels left, and at one level the order in which its functions call each other.','use Prim.Native.Nat.{ℕ, _+_, _*_, _/_, _<_}','use borrow.Fn.Kinds.{In}','use borrow.Fn.PlainCycle.{Measures, is, falls, and}']
for m in members:
    o.append('use %s.Reads as %s-reads'%(modof(m),ln(m))); o.append('use %s.Kinds as %s-kinds'%(modof(m),ln(m)))
for m in members:
    k=ln(m); o.append('\nabbrev pub μ-%s : Measures %s %s-kinds.ps ℕ\nμ-%s κs a = 8 * (a .1 .1 .1 .1 .0 / 4294967296) + %s'%(k,n,k,k,rank[m]))
for m in members:
    k=ln(m)
    o.append('\nabbrev pub %s-at : ℕ → In %s %s-kinds.ps\n%s-at t = and %s %s-kinds.ps (is %s %s-kinds.ps μ-%s t) %s-reads.Pre'%(k,n,k,k,n,k,n,k,k,k))
    o.append('\nabbrev pub %s-below : ℕ → In %s %s-kinds.ps\n%s-below t = and %s %s-kinds.ps (falls %s %s-kinds.ps _<_ μ-%s t) %s-reads.Pre'%(k,n,k,k,n,k,n,k,k,k))
open(d+'/Proof/Measures.antt','w').write('\n'.join(o)+'\n')
def camel(m): return ''.join(x.capitalize() for x in re.split('[-_]',m))
files=prove.lts_of(crate,cyc)
bad=False
for m in members:
    A=ans.get(m,{'use':[],'ans':{}}); k=ln(m)
    lts=[f for kk,f in files.items() if kk.replace('-','_')==m][0]
    text=open(lts).read()
    needs=re.findall(r'abbrev pub Need-(\S+) : Type',text)
    loop='InvT-loop' in text
    callees=[]
    for x in needs:
        y=re.match(r'(.*)-requires(-\d+)?$',x)
        if y and y.group(1) not in callees: callees.append(y.group(1))
    records,places=prove.load(lts)
    o=['use Prim.Native.Nat.{ℕ}','use borrow.Author.Needs.{needs}']
    claims=[]
    for cname in callees:
        u=cname.replace('-','_')
        o.append('use %s.Reads as %s-reads'%(modof(u),cname))
        claims+= ['%s-below t'%cname,'%s-reads.Post'%cname] if u in members else ['%s-reads.Asked'%cname,'%s-reads.Learnt'%cname]
    o.append('use %s.Reads as own'%modof(m)); o.append('use %s as cycle'%base); o.append('use cycle.%s as lts'%os.path.basename(lts)[:-5])
    o.append('use cycle.Proof.Measures.{%s}'%', '.join(sorted(set(['%s-at'%k]+['%s-below'%c for c in callees if c.replace('-','_') in members]))))
    o+= [u for u in A['use'] if u.startswith('use ') and u not in o]
    o.append('\nabbrev called : ℕ → lts.Claims\ncalled t = (%s)'%', '.join(claims))
    for l in A['use']:
        if not l.startswith('use '): o.append(('\n' if l.startswith('abbrev') else '')+l)
    o.append('\nmodule _ (t : ℕ) where')
    lp=' Inv-loop μ-loop' if loop else ''
    for need in needs:
        unf,a=A['ans'].get(need,[None,'search needs' if m in ans and A['ans'] else '?'])
        paths={}
        for depth,(_,fields) in enumerate(prove.way(records,places[need])):
            for f in fields: paths.setdefault(f,' '.join(['c']+['.before']*depth+['.'+f]))
        def path(x):
            global bad
            if x.group(1) not in paths: print(m,need,'no',x.group(1),'there is',' '.join(paths)); bad=True; return '?'
            return paths[x.group(1)]
        a=re.sub(r"@([\w'-]+)",path,a)
        o.append('  %s : lts.Need-%s (called t) (%s-at t) own.Post%s'%(need,need,k,lp))
        if unf: o.append('  unfolding '+unf)
        o.append('  %s c%s = %s\n'%(need,' κs' if re.search(r'-requires(-\d+)?$',need) else '',a))
    for x in A['ans']:
        if x not in needs: print(m,'no need',x)
    o.append('  pub closed : {M : Type 1} → lts.Closed (called t) (%s-at t) own.Post M'%k)
    o.append('  closed = lts.spec (called t) (%s-at t) own.Post%s %s'%(k,lp,' '.join(needs)))
    open(d+'/Proof/%s.antt'%camel(m),'w').write('\n'.join(x.rstrip() for x in o)+'\n')
o=['-- The functions of the evaluator meet their contracts: one induction over the levels left.','mod Measures']+['mod '+camel(m) for m in members]
o+=['use %s as cycle'%base,'use cycle.{statement}','use cycle.Tie.{close}','use cycle.Proof.Measures.{%s}'%', '.join('μ-'+ln(m) for m in members)]
o+=['use cycle.Proof.%s as %s'%(camel(m),ln(m)) for m in members]
o+=['','pub %s : {M : Type 1} → statement M'%spec,'%s = close %s %s'%(spec,' '.join('μ-'+ln(m) for m in members),' '.join('(λ t. %s.closed t)'%ln(m) for m in members))]
open(d+'/Proof.antt','w').write('\n'.join(o)+'\n')
print('members',len(members),'bad' if bad else 'ok')
