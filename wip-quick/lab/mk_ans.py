HEAD='''use native.Mathlib.Omega.{arith}
use Rattle·eval_tree·proofs.proofs.Chains.{value-is, passes}
'''
CH='_ _ _ _ (@child-at .ensures) _ (@part .ensures)'
V1='(value-is _ _ _ (@what .ensures) (@if1 .left))'
V2='(value-is _ _ _ (@what2 .ensures) (@if2 .left))'
V3='(value-is _ _ _ (@what3 .ensures) (@if3 .left))'
P1='(passes _ _ _ (@what .ensures) (@if1 .taken))'
out=[]
def b(name,*lines): out.append('== '+name); out.extend(lines)
b('part','use Rattle·eval_tree·proofs.proofs.Entries.{expr-stops, part-number, part-name}','use borrow.Author.Tests.{not-true, not-false}','use native.Mathlib.Omega.{arith}',
 'returns: expr-stops _ _ _ _ _ (@enter .ensures _ _ _) (not-true (@enter .result) (@if2 .taken))',
 'returns-2: part-number _ _ _ _ (@kind-at .ensures) _ _ (@enter .ensures _ _ _) (not-false (@enter .result) (@if2 .left)) _ (@if1 .taken) _ (@code-at .ensures) (@number .ensures _ _ _)',
 'returns-3: expr-stops _ _ _ _ _ (@enter2 .ensures _ _ _) (not-true (@enter2 .result) (@if4 .taken))',
 'returns-4: part-name _ _ _ _ (@kind-at .ensures) _ _ (@enter2 .ensures _ _ _) (not-false (@enter2 .result) (@if4 .left)) _ (@if3 .taken) (@name-value .ensures _)',
 'evaluate-requires: omega (arith, @pre)',
 'returns-5: @evaluate .ensures')
E='expr-goes _ _ _ _ _ (@enter .ensures _ _ _) (not-false (@enter .result) (@if1 .left)) _ refl _ '
R='let some = @enter .ensures [] [] [] .level (not-false (@enter .result) (@if1 .left)) in omega (arith, @pre, some, down-levels _ some _ refl)'
fs=[('choice','if'),('both','and'),('either','or'),('applied','apply'),('alloc','alloc'),('nth','nth'),('len','len'),('vset','vset')]
b('evaluate','use native.Mathlib.Omega.{arith}','use mathlib.Core.Path.{refl, _∙_}','use mathlib.Core.List.{[]}','use borrow.Author.Tests.{not-true, not-false}',
 'use Rattle·eval_tree·proofs.proofs.Entries.{expr-stops, expr-goes, if-kind, and-kind, or-kind, apply-kind, alloc-kind, nth-kind, len-kind, vset-kind, plain-kind, down-levels, level-left}',
 'returns: expr-stops _ _ _ _ _ (@enter .ensures _ _ _) (not-true (@enter .result) (@if1 .taken))',
 'sub-down: level-left _ (@enter .ensures [] [] [] .level (not-false (@enter .result) (@if1 .left)))',
 *['%s-requires: %s'%(f,R) for f,_ in fs],
 *['returns-%d: %s(@%s .ensures ∙ %s-kind _ _ _ _ (@kind-at .ensures) (@match .keys%d))'%(n+2,E,f,k,n+1) for n,(f,k) in enumerate(fs)],
 'returns-10: %s(@plain .ensures _ ∙ plain-kind _ _ _ _ (@kind-at .ensures) (@match .rest .0 .0 .0 .0 .0 .0 .0 .1) (@match .rest .0 .0 .0 .0 .0 .0 .1) (@match .rest .0 .0 .0 .0 .0 .1) (@match .rest .0 .0 .0 .0 .1) (@match .rest .0 .0 .0 .1) (@match .rest .0 .0 .1) (@match .rest .0 .1) (@match .rest .1))'%E)
b('choice',HEAD.strip(),'use Rattle·eval_tree·proofs.proofs.Expressions.{if-passes, if-no-bit, if-neither, if-one, if-zero}',
 *['part-requires%s: omega (arith, @pre)'%x for x in ('','-2','-3')],
 'returns: if-passes %s %s'%(CH,P1),
 'returns-2: if-no-bit %s _ _ %s _ (@if2 .taken) (@no-rule .ensures _ _ _)'%(CH,V1),
 'returns-3: if-zero %s _ _ %s _ _ (@next-at .ensures) (@if2 .left) (@match .keys1) _ (@next-at2 .ensures) (@part2 .ensures)'%(CH,V1),
 'returns-4: if-one %s _ _ %s _ _ (@next-at .ensures) (@if2 .left) (@match .keys2) (@part3 .ensures)'%(CH,V1),
 'returns-5: if-neither %s _ _ %s _ (@match .rest .0 .1) (@match .rest .1) (@if2 .left) (@no-rule2 .ensures _ _ _)'%(CH,V1))
b('both',HEAD.strip(),'use Rattle·eval_tree·proofs.proofs.Expressions.{and-passes, and-no-bit, and-neither, and-one, and-zero}',
 *['part-requires%s: omega (arith, @pre)'%x for x in ('','-2')],
 'returns: and-passes %s %s'%(CH,P1),
 'returns-2: and-no-bit %s _ _ %s _ (@if2 .taken) (@no-rule .ensures _ _ _)'%(CH,V1),
 'returns-3: and-zero %s _ _ %s _ (@if2 .left) (@match .keys1) (@number .ensures _ _ _)'%(CH,V1),
 'returns-4: and-one %s _ _ %s _ _ (@next-at .ensures) (@if2 .left) (@match .keys2) (@part2 .ensures)'%(CH,V1),
 'returns-5: and-neither %s _ _ %s _ (@match .rest .0 .1) (@match .rest .1) (@if2 .left) (@no-rule2 .ensures _ _ _)'%(CH,V1))
b('either',HEAD.strip(),'use Rattle·eval_tree·proofs.proofs.Expressions.{or-passes, or-no-bit, or-neither, or-one, or-zero}',
 *['part-requires%s: omega (arith, @pre)'%x for x in ('','-2')],
 'returns: or-passes %s %s'%(CH,P1),
 'returns-2: or-no-bit %s _ _ %s _ (@if2 .taken) (@no-rule .ensures _ _ _)'%(CH,V1),
 'returns-3: or-zero %s _ _ %s _ _ (@next-at .ensures) (@if2 .left) (@match .keys1) (@part2 .ensures)'%(CH,V1),
 'returns-4: or-one %s _ _ %s _ (@if2 .left) (@match .keys2) (@number .ensures _ _ _)'%(CH,V1),
 'returns-5: or-neither %s _ _ %s _ (@match .rest .0 .1) (@match .rest .1) (@if2 .left) (@no-rule2 .ensures _ _ _)'%(CH,V1))
b('applied','use native.Mathlib.Omega.{arith}','use mathlib.Core.Path.{_∙_}','use Rattle·eval_tree·proofs.proofs.Entries.{apply-call, apply-operator}',
 'call-requires: omega (arith, @pre)','operation-requires: omega (arith, @pre)',
 'returns: @call .ensures ∙ apply-call _ _ _ _ (@code-at .ensures) (@if1 .taken)',
 'returns-2: @operation .ensures ∙ apply-operator _ _ _ _ (@code-at .ensures) (@if1 .left)')
O='_ _ _ _ (first-argument _ _ _ _ (@child-at .ensures) (@next-at .ensures)) _ (@part .ensures)'
O2=O+' _ _ (value-is _ _ _ (@what .ensures) (@if1 .left)) _ (@next-at2 .ensures)'
O3=O2+' (@if2 .left) _ (@part2 .ensures)'
O4=O3+' _ _ (value-is _ _ _ (@what2 .ensures) (@if3 .left)) _ (@next-at3 .ensures)'
b('operation',HEAD.strip(),'use Rattle·eval_tree·proofs.proofs.Expressions.{first-argument, operator-passes, operator-one, operator-passes-2, operator-two, operator-passes-3, operator-many}',
 'part-requires: omega (arith, @pre)','part-requires-2: omega (arith, @pre)','arguments-requires: omega (arith, @pre)',
 'returns: operator-passes %s %s'%(O,P1),
 'returns-2: operator-one %s (@if2 .taken) _ (@code-at .ensures) _ (@negate .ensures _ _ _)'%O2,
 'returns-3: operator-passes-2 %s (passes _ _ _ (@what2 .ensures) (@if3 .taken))'%O3,
 'returns-4: operator-two %s (@if4 .taken) _ (@code-at2 .ensures) _ (@place-at .ensures) _ (@combine .ensures _ _ _)'%O4,
 'returns-5: operator-passes-3 %s (@if4 .left) _ (@arguments .ensures) (passes _ _ _ (@what3 .ensures) (@if5 .taken))'%O4,
 'returns-6: operator-many %s (@if4 .left) _ (@arguments .ensures) _ _ (value-is _ _ _ (@what3 .ensures) (@if5 .left)) _ (@no-rule .ensures _ _ _)'%O4)
C2=CH+' _ _ %s _ (@next-at .ensures) _ (@arguments .ensures)'%V1
C3=C2+' _ _ %s _ (@place-at .ensures) _ (@open-function .ensures _ _)'%V2
b('call',HEAD.strip(),'use Rattle·eval_tree·proofs.proofs.Calls.{call-passes, call-passes-2, call-passes-3, call-goes}',
 'part-requires: omega (arith, @pre)','arguments-requires: omega (arith, @pre)','with-env-requires: @if3 .left','body-requires: omega (arith, @pre, @with-env .ensures .0)',
 'returns: call-passes %s %s'%(CH,P1),
 'returns-2: call-passes-2 %s (passes _ _ _ (@what2 .ensures) (@if2 .taken))'%C2,
 'returns-3: call-passes-3 %s (passes _ _ _ (@what3 .ensures) (@if3 .taken))'%C3,
 'returns-4: call-goes %s _ _ %s _ (@with-env .ensures .0) (@with-env .ensures .1 .0) (@with-env .ensures .1 .1) _ (@body .ensures)'%(C3,V3))
B='_ _ _ _ (@kind-at .ensures) (@if1 .left) _ (@child-at .ensures) _ (@block .ensures)'
b('body',HEAD.strip(),'use Rattle·eval_tree·proofs.proofs.Calls.{body-evaluates, body-no-return, body-returns, body-passes, returned-is, stop-stays, past-stays}',
 'evaluate-requires: omega (arith, @pre)',
 'returns: body-evaluates _ _ _ _ (@kind-at .ensures) (@if1 .taken) _ (@evaluate .ensures)',
 'returns-2: body-no-return %s _ _ (value-is _ _ _ (@what .ensures) (@if2 .taken)) _ (@no-rule .ensures _ _ _)'%B,
 'returns-3: body-passes %s (stop-stays _ _ _ (@what .ensures) (@if2 .left) (@if3 .taken))'%B,
 'returns-4: body-passes %s (past-stays _ _ _ (@what .ensures) (@if4 .taken))'%B,
 'sub-value: omega (arith, @if3 .left)',
 'value-requires: omega (arith, @if3 .left, @if4 .left)',
 'returns-5: body-returns %s _ _ (returned-is _ _ _ (@what .ensures) (@if3 .left) (@if4 .left)) _ (@value .ensures _ _ _)'%B)
b('alloc',HEAD.strip(),'use Rattle·eval_tree·proofs.proofs.Expressions.{first-argument}','use Rattle·eval_tree·proofs.proofs.Calls.{alloc-passes, alloc-goes}',
 'part-requires: omega (arith, @pre)',
 'returns: alloc-passes %s %s'%(O,P1),
 'returns-2: alloc-goes %s _ _ %s _ (@place-at .ensures) _ (@make-cells .ensures _ _)'%(O,V1))
N2=CH+' _ _ %s _ (@next-at .ensures) _ (@part2 .ensures)'%V1
b('nth',HEAD.strip(),'use Rattle·eval_tree·proofs.proofs.Calls.{nth-passes, nth-passes-2, nth-goes}',
 'part-requires: omega (arith, @pre)','part-requires-2: omega (arith, @pre)',
 'returns: nth-passes %s %s'%(CH,P1),
 'returns-2: nth-passes-2 %s (passes _ _ _ (@what2 .ensures) (@if2 .taken))'%N2,
 'returns-3: nth-goes %s _ _ %s _ (@place-at .ensures) _ (@element-value .ensures _ _)'%(N2,V2))
b('len',HEAD.strip(),'use Rattle·eval_tree·proofs.proofs.Calls.{len-passes, len-goes}',
 'part-requires: omega (arith, @pre)',
 'returns: len-passes %s %s'%(CH,P1),
 'returns-2: len-goes %s _ _ %s _ (@length-value .ensures _ _ _)'%(CH,V1))
S3=N2+' _ _ %s _ (@next-at2 .ensures) _ (@part3 .ensures)'%V2
b('vset',HEAD.strip(),'use Rattle·eval_tree·proofs.proofs.Calls.{vset-passes, vset-passes-2, vset-passes-3, vset-goes}',
 'part-requires: omega (arith, @pre)','part-requires-2: omega (arith, @pre)','part-requires-3: omega (arith, @pre)','set-element-requires: @if1 .left',
 'returns: vset-passes %s %s'%(CH,P1),
 'returns-2: vset-passes-2 %s (passes _ _ _ (@what2 .ensures) (@if2 .taken))'%N2,
 'returns-3: vset-passes-3 %s (passes _ _ _ (@what3 .ensures) (@if3 .taken))'%S3,
 'returns-4: vset-goes %s _ _ %s _ (@place-at .ensures) _ (@set-element .ensures _ _)'%(S3,V3))
import sys
extra=open(sys.argv[1]).read() if len(sys.argv)>1 else ''
open('lab/ans/tree2','w').write('\n'.join(out)+'\n'+extra)
