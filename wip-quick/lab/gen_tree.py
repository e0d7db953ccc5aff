import sys
out=[]
def fn(name, spec, comment, body, pub=False):
    out.append('// '+comment)
    out.append('%sfn %s(\n    m: &mut [u64; 17424],\n    b: &mut &mut [u64],\n    c: &mut &mut [u64],\n    o: &mut &mut [i64],\n    at: u64,\n    i: u64,\n) -> u64' % ('pub ' if pub else '', name))
    out.append('    ensures { λ r. ⌜ came (now (m .exit)) r (now (now (b .exit))) (now (now (c .exit))) (now (now (o .exit))) ≡')
    out.append('        %s at i (state (now (m .entry)) (now (now (b .entry))) (now (now (c .entry))) (now (now (o .entry)))) ⌝ }' % spec)
    out.append('{'); out.append(body.strip('\n')); out.append('}\n')
exec(open(sys.argv[1]).read())
open(sys.argv[2],'w').write('\n'.join(out).rstrip()+'\n')
