#!/bin/bash
# dev.sh CRATE: expand (if templates) + dev with holes, in one slot; short output
cd .; export PATH=bin:$PATH
cat > devN.run <<F
cd .
[ -n "$START" ] && tools/prove start $1 | grep wrote
[ -n "$EXPAND" ] && tools/prove expand $1
tools/prove show $1 --allow-holes > devN.out 2>&1
F
slot bash devN.run
python3 - <<'P'
import re,os
W=int(os.environ.get('W','260')); L=int(os.environ.get('L','70'))
out=[];keep=0
for l in open('devN.out'):
    l=l.rstrip('\n')
    if re.search(r'note: |was not admitted \(|^rt: .*unchanged|: proved$|is not admitted: has-holes|^\s+was found|computed as far',l): continue
    l=l.replace('./crates/','')
    out.append(l[:W])
print('\n'.join(out[:L]))
P
