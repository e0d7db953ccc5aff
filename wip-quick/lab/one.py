import re,sys
s = open(sys.argv[1]).read()
N=17432
BASE=8200
s = s.replace('prog: &[u64; 8195], m: &mut [u64; 9224]', 'm: &mut [u64; %d]'%N).replace('prog: &[u64; 8195]', 'm: &[u64; %d]'%N).replace('m: &mut [u64; 9224]', 'm: &mut [u64; %d]'%N)
s = re.sub(r'\bm\[(\d+)\]', lambda k: 'm[%d]' % (int(k.group(1))+BASE), s)
s = s.replace('prog, m', 'm').replace('(prog,', '(m,').replace('prog[', 'm[').replace('limit_of(prog)','limit_of(m)')
s = s.replace('let k = 8 + 2', 'let k = %d + 2'%(BASE+8)).replace('let r = 8 + 2', 'let r = %d + 2'%(BASE+8))
open(sys.argv[2],'w').write(s)
