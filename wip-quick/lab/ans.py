#!/usr/bin/env python3
# ans.py CRATE FILE: FILE has blocks "== function", then "use ..." lines, then "need [unfolding a b]: answer" (continuation lines are indented)
import sys, re, os
crate, spec = sys.argv[1], sys.argv[2]
cur=None; blocks={}
for line in open(spec).read().split('\n'):
    if line.startswith('== '):
        cur=line[3:].strip(); blocks[cur]={'use':[], 'ans':{}, 'last':None}
    elif not line.strip() or line.startswith('#'): continue
    elif line.startswith('use '): blocks[cur]['use'].append(line)
    elif line.startswith(' '):
        k=blocks[cur]['last']; blocks[cur]['ans'][k][1]+= '\n'+line
    else:
        m=re.match(r'([\w·-]+)(?: unfolding ([^:]*))?: (.*)$', line)
        blocks[cur]['ans'][m.group(1)]=[m.group(2), m.group(3)]; blocks[cur]['last']=m.group(1)
for f,bl in blocks.items():
    d='crates/%s/proofs/%s'%(crate,f)
    src=d+'/Proof.tmpl' if os.path.exists(d+'/Proof.tmpl') else d+'/Proof.antt'
    t=open(src).read()
    t=t.replace('-- Written by tools/prove from Proof.tmpl.\n','')
    t=re.sub(r'(?m)^-- src/.*\n','',t)
    t=re.sub(r'(?m)^use \S+\.Reads as .*\n|^use \S+\.Lts as .*\n','',t)
    for u in bl['use']:
        if u not in t: t=u+'\n'+t
    for k,(unf,a) in bl['ans'].items():
        pat=re.compile(r'(?m)^(%s : tie\.Need-%s[^\n]*\n)(?:unfolding [^\n]*\n)?(%s c(?: κs)? =)(?:.*?)(?=\n\n)'%(re.escape(k),re.escape(k),re.escape(k)), re.S)
        new, n = pat.subn(lambda m: m.group(1)+('unfolding %s\n'%unf if unf else '')+m.group(2)+' '+a, t)
        if n!=1: print('NO NEED', f, k)
        t=new
    open(d+'/Proof.tmpl','w').write(t)
