out.append('''// The evaluator: expressions, applications and blocks call on each other, with the levels left as the falling number.
use eval_state::LEVEL;
use eval_state::STOP;
use eval_state::PAST_RETURNED;
use eval_state::RETURNED;
use eval_state::child_at;
use eval_state::code_at;
use eval_state::combine;
use eval_state::enter;
use eval_state::kind_at;
use eval_state::negate;
use eval_state::next_at;
use eval_state::no_rule;
use eval_state::number;
use eval_state::place_at;
use eval_state::returned;
use eval_state::value;
use eval_state::what;
ghost use mathlib.Core.Path.{_≡_};
ghost use mathlib.Core.List.{List};
ghost use Prim.Native.Nat.{ℕ, _<_};
ghost use lib.IntN.{ℤ};
ghost use Rattle·nodes.specs.Nodes.{nodeAt};
ghost use Rattle·machine.specs.Entries.{row, rowAfter};
ghost use Rattle·machine.specs.declared.Ending.the-variants.{Value};
ghost use Rattle·machine.specs.State.{codeAt, push};
ghost use Rattle·machine.specs.Leaves.{boundTo, addressOf, nameValue, elementValue, lengthValue, setElement, stored, openFunction, openProcedure, define, allocate};
ghost use Rattle·machine.specs.Machine.{blockC, level, exprAt, blockAt, ifAt, andAt, orAt, callAt, argsAt, bodyAt, allocAt, nthAt, lenAt, vsetAt};
ghost use Rattle·machine.specs.Machine.{cmdAt, whileAt, roundAt, constAt, echoAt, setAt, returnAt, ifStatAt, callStatAt};
ghost use Rattle·eval_state.specs.Seen.{runSeen, countsIn, tablesIn, state, came, answered, gives, levelsOf, rowOf, envIn};
ghost use Rattle·eval_tree·specs.specs.Steps.{index, node, coded, plainIn, applyIn, operatorOf, definesAt, echoed, pushed};

const FIRST_OPERATOR: u64 = 3;

// Answers that are no values: what is done, and a round of WHILE that asks for one more.
const DONE: u64 = 7;

const AGAIN: u64 = 8;
''')
# ---- stub leaves
def leaf(name, args, quant, bs, cs, os_, spec, requires=None, ret='u64', cont=None, lean=False):
    b='(now (now (b .exit)))' if bs else 'b'; b0='(now (now (b .entry)))' if bs else 'b'
    c='(now (now (c .exit)))' if cs else 'c'; c0='(now (now (c .entry)))' if cs else 'c'
    o='(now (now (o .exit)))' if os_ else 'o'; o0='(now (now (o .entry)))' if os_ else 'o'
    q=[]
    l=[x for x,y in (('b',bs),('c',cs)) if not y]
    if l: q.append('(%s : List ℕ)'%' '.join(l))
    if not os_: q.append('(o : List ℤ)')
    st='(state (now (m .entry)) %s %s %s)'%(b0,c0,o0); tb='(tablesIn (now (m .entry)) %s %s %s)'%(b0,c0,o0)
    spec=spec.replace('@s',st).replace('@t',tb).replace('@b',b0).replace('@c',c0).replace('@o',o0).replace('@g','(runSeen (now (m .entry)))').replace('@m','(now (m .entry))')
    lhs='came (now (m .exit)) r %s %s %s'%(b,c,o)
    if cont: lhs=cont.replace('@q','(now (m .exit)) %s %s %s'%(b,c,o))
    pre=' '.join(q)+' → ' if q else ''
    a=['m: &mut [u64; 17424]']+(['b: &mut &mut [u64]'] if bs else [])+(['c: &mut &mut [u64]'] if cs else [])+(['o: &mut &mut [i64]'] if os_ else [])+['%s: u64'%x for x in args]
    out.append('fn %s(%s) -> u64'%(name,', '.join(a)))
    if requires: out.append('    requires { ⌜ %s ⌝ }'%requires)
    out.append('    ensures { λ r. ⌜ (%s%s ≡ %s) ⌝ }'%(pre,lhs,spec))
    out.append('{\n    number(m, 0)\n}\n')
leaf('name_value',['i','env'],1,1,1,0,'gives @s (nameValue @b @c (codeAt @g i) (nodeAt (@g .tree) i .place) (countsIn @m .cells) env)')
leaf('plain',['at','i'],1,1,1,0,'coded plainIn at i @s')
leaf('address',['code','env'],1,1,0,0,'gives @s (addressOf @b code env)')
leaf('bound',['code','env'],1,1,0,0,'gives @s (boundTo @b code env)')
leaf('open_function',['at','p','n','tag','word'],1,1,0,0,'answered @s (openFunction @g p n (rowOf at) tag word @t)')
leaf('open_procedure',['at','p','n','tag','word'],1,1,0,0,'answered @s (openProcedure @g p n (rowOf at) tag word @t)')
leaf('define_name',['p','tag','word','env'],1,1,0,0,'answered @s (define @g p tag word env @t)')
leaf('definition',['at','i'],1,1,1,0,'node definesAt at i @s')
leaf('make_cells',['p','tag','word'],1,0,1,0,'answered @s (allocate @g p (row tag word) @t)')
leaf('element_value',['p','tag','word','kind','payload'],1,0,1,0,'gives @s (elementValue @c (countsIn @m .cells) p (row tag word) (row kind payload))')
leaf('length_value',['tag','word'],1,0,0,0,'gives @s (lengthValue (row tag word))')
leaf('set_element',['p','tag','word','kind','payload','t','x'],1,0,1,0,'answered @s (setElement p (row tag word) (row kind payload) t x @t)', requires='tag < 65536')
leaf('put_out',['p','tag','word','env'],1,0,0,1,'answered @s (echoed @g p env tag word @t)')
leaf('store',['cell','tag','word','env'],1,0,1,0,'answered @s (stored cell tag word (Value 7 env) @t)')
out.append('''fn wait(m: &mut [u64; 17424], at: u64, tag: u64, word: u64)
    ensures { λ _. ⌜ ((b c : List ℕ) (o : List ℤ) → state (now (m .exit)) b c o ≡ pushed (rowOf at) tag word (state (now (m .entry)) b c o)) ⌝ }
{
}

fn row_behind(at: u64) -> u64
    ensures { λ r. ⌜ levelsOf r ≡ levelsOf at ⌝ }
    ensures { λ r. ⌜ rowOf r ≡ rowAfter (rowOf at) ⌝ }
    ensures { λ r. ⌜ envIn r ≡ envIn at ⌝ }
{
    at
}

fn with_env(at: u64, env: u64) -> u64
    requires { ⌜ env < 65536 ⌝ }
    ensures { λ r. ⌜ levelsOf r ≡ levelsOf at ⌝ }
    ensures { λ r. ⌜ rowOf r ≡ rowOf at ⌝ }
    ensures { λ r. ⌜ envIn r ≡ env ⌝ }
{
    at
}
''')
fn('part','index exprAt','A part of an expression or of a command: a number or a name is taken without a further call.','''
    let kind = kind_at(m, i);
    if kind == 18 {
        if !enter(m, at, i) {
            return 0;
        }
        let word = code_at(m, i);
        return number(m, word);
    }
    if kind == 19 {
        if !enter(m, at, i) {
            return 0;
        }
        return name_value(m, b, c, i, at % 65536);
    }
    evaluate(m, b, c, o, at, i)
''')
fn('evaluate','index exprAt','An expression: a unit, a level, and then by its kind.','''
    if !enter(m, at, i) {
        return 0;
    }
    let down = at - LEVEL;
    match kind_at(m, i) {
        20 => choice(m, b, c, o, down, i),
        21 => both(m, b, c, o, down, i),
        22 => either(m, b, c, o, down, i),
        23 => applied(m, b, c, o, down, i),
        27 => alloc(m, b, c, o, down, i),
        28 => nth(m, b, c, o, down, i),
        29 => len(m, b, c, o, down, i),
        30 => vset(m, b, c, o, down, i),
        _ => plain(m, b, c, down, i),
    }
''')
BIT='''    let child = child_at(m, i);
    let x = part(m, b, c, o, at, child);
    let tag = what(m);
    if tag >= STOP {
        return x;
    }
    if tag != 0 {
        return no_rule(m);
    }
'''
fn('choice','node ifAt','`if`: the condition, and then one of the two.',BIT+'''    let then = next_at(m, child);
    match x {
        0 => {
            let second = next_at(m, then);
            part(m, b, c, o, at, second)
        }
        1 => part(m, b, c, o, at, then),
        _ => no_rule(m),
    }
''')
fn('both','node andAt','`and`: the second part is evaluated after a 1.',BIT+'''    match x {
        0 => number(m, 0),
        1 => {
            let second = next_at(m, child);
            part(m, b, c, o, at, second)
        }
        _ => no_rule(m),
    }
''')
fn('either','node orAt','`or`: the second part is evaluated after a 0.',BIT+'''    match x {
        0 => {
            let second = next_at(m, child);
            part(m, b, c, o, at, second)
        }
        1 => number(m, 1),
        _ => no_rule(m),
    }
''')
fn('applied','coded applyIn','An application, by what its head is among the nine names.','''
    if code_at(m, i) < FIRST_OPERATOR {
        return call(m, b, c, o, at, i);
    }
    operation(m, b, c, o, at, i)
''')
fn('operation','coded operatorOf','An operator applied: its arguments do not wait. With more than two no rule fits, once they are evaluated.','''
    let head = child_at(m, i);
    let one = next_at(m, head);
    let x = part(m, b, c, o, at, one);
    let tag = what(m);
    if tag >= STOP {
        return x;
    }
    let two = next_at(m, one);
    if two == 0 {
        let operator = code_at(m, i);
        return negate(m, operator, tag, x);
    }
    let y = part(m, b, c, o, at, two);
    let kind = what(m);
    if kind >= STOP {
        return y;
    }
    let three = next_at(m, two);
    if three == 0 {
        let operator = code_at(m, i);
        let place = place_at(m, i);
        return combine(m, operator, place, tag, x, kind, y);
    }
    let more = arguments(m, b, c, o, at, three);
    let rest = what(m);
    if rest >= STOP {
        return more;
    }
    no_rule(m)
''')
fn('call','node callAt','A function applied: head, arguments, bindings, body.','''
    let head = child_at(m, i);
    let x = part(m, b, c, o, at, head);
    let tag = what(m);
    if tag >= STOP {
        return x;
    }
    let one = next_at(m, head);
    let many = arguments(m, b, c, o, at, one);
    let given = what(m);
    if given >= STOP {
        return many;
    }
    let place = place_at(m, i);
    let inside = open_function(m, b, at, place, many, tag, x);
    let env = what(m);
    if env >= STOP {
        return inside;
    }
    let within = with_env(at, env);
    body(m, b, c, o, within, inside)
''')
fn('body','index bodyAt','A function\'s body: an expression, or a block that returns.','''
    if kind_at(m, i) != 1 {
        return evaluate(m, b, c, o, at, i);
    }
    let start = child_at(m, i);
    let x = block(m, b, c, o, at, start);
    let tag = what(m);
    if tag < STOP {
        return no_rule(m);
    }
    if tag < RETURNED {
        return x;
    }
    if tag >= PAST_RETURNED {
        return x;
    }
    value(m, tag - RETURNED, x)
''')
fn('arguments','index argsAt','All arguments from the node `i` on, left to right: they wait, and the answer is how many do.','''
    let mut node = i;
    let mut here = at;
    let mut many = 0;
    while node != 0 {
        let x = part(m, b, c, o, here, node);
        let tag = what(m);
        if tag >= STOP {
            return x;
        }
        wait(m, here, tag, x);
        here = row_behind(here);
        many = many + 1;
        node = next_at(m, node);
    }
    value(m, DONE, many)
''')
fn('alloc','node allocAt','Cells, as many as the value says; the size stands behind the type.','''
    let kind = child_at(m, i);
    let size = next_at(m, kind);
    let x = part(m, b, c, o, at, size);
    let tag = what(m);
    if tag >= STOP {
        return x;
    }
    let place = place_at(m, i);
    make_cells(m, c, place, tag, x)
''')
fn('nth','node nthAt','An element of a block.','''
    let block = child_at(m, i);
    let x = part(m, b, c, o, at, block);
    let tag = what(m);
    if tag >= STOP {
        return x;
    }
    let number = next_at(m, block);
    let y = part(m, b, c, o, at, number);
    let kind = what(m);
    if kind >= STOP {
        return y;
    }
    let place = place_at(m, i);
    element_value(m, c, place, tag, x, kind, y)
''')
fn('len','node lenAt','How many cells a block has.','''
    let block = child_at(m, i);
    let x = part(m, b, c, o, at, block);
    let tag = what(m);
    if tag >= STOP {
        return x;
    }
    length_value(m, tag, x)
''')
fn('vset','node vsetAt','A value is put into an element, and the block is the answer.','''
    let block = child_at(m, i);
    let x = part(m, b, c, o, at, block);
    let tag = what(m);
    if tag >= STOP {
        return x;
    }
    let number = next_at(m, block);
    let y = part(m, b, c, o, at, number);
    let kind = what(m);
    if kind >= STOP {
        return y;
    }
    let part_of = next_at(m, number);
    let z = part(m, b, c, o, at, part_of);
    let last = what(m);
    if last >= STOP {
        return z;
    }
    let place = place_at(m, i);
    set_element(m, c, place, tag, x, kind, y, last, z)
''')
# ---- commands
fn('block','index blockAt','The commands from the node `i` on, one after the other: the answer is the environment after them.','''
    let mut node = i;
    let mut here = at;
    while node != 0 {
        let env = command(m, b, c, o, here, node);
        let tag = what(m);
        if tag >= STOP {
            return env;
        }
        here = with_env(here, env);
        node = next_at(m, node);
    }
    value(m, DONE, here % 65536)
''', True)
fn('command','node cmdAt','A command: each round of a WHILE is entered, and any other command once.','''
    let kind = kind_at(m, i);
    if kind == 11 {
        return rounds(m, b, c, o, at, i);
    }
    if !enter(m, at, i) {
        return 0;
    }
    let down = at - LEVEL;
    match kind {
        2 => constant(m, b, c, o, down, i),
        8 => echo(m, b, c, o, down, i),
        9 => set(m, b, c, o, down, i),
        10 => branch(m, b, c, o, down, i),
        12 => call_procedure(m, b, c, o, down, i),
        31 => give_back(m, b, c, o, down, i),
        _ => definition(m, b, c, down, i),
    }
''')
fn('constant','node constAt','CONST: the value, and then a binding.','''
    let name = child_at(m, i);
    let kind = next_at(m, name);
    let e = next_at(m, kind);
    let x = part(m, b, c, o, at, e);
    let tag = what(m);
    if tag >= STOP {
        return x;
    }
    let place = place_at(m, i);
    define_name(m, b, place, tag, x, at % 65536)
''')
fn('echo','node echoAt','ECHO: the value goes out, if there is room.','''
    let e = child_at(m, i);
    let x = part(m, b, c, o, at, e);
    let tag = what(m);
    if tag >= STOP {
        return x;
    }
    let place = place_at(m, i);
    put_out(m, o, place, tag, x, at % 65536)
''')
fn('set','node setAt','SET: the cell of the name, the value, and then the value is stored.','''
    let name = child_at(m, i);
    let code = code_at(m, name);
    let cell = address(m, b, code, at % 65536);
    let found = what(m);
    if found >= STOP {
        return cell;
    }
    let e = next_at(m, name);
    let x = part(m, b, c, o, at, e);
    let tag = what(m);
    if tag >= STOP {
        return x;
    }
    store(m, c, cell, tag, x, at % 65536)
''')
fn('give_back','node returnAt','RETURN: the value ends the commands of a function.','''
    let e = child_at(m, i);
    let x = part(m, b, c, o, at, e);
    let tag = what(m);
    if tag >= STOP {
        return x;
    }
    returned(m, tag, x)
''')
fn('branch','node ifStatAt','IF: the condition, and then one of the two blocks.',BIT+'''    let then = next_at(m, child);
    match x {
        0 => {
            let second = next_at(m, then);
            inner(m, b, c, o, at, second, at % 65536)
        }
        1 => inner(m, b, c, o, at, then, at % 65536),
        _ => no_rule(m),
    }
''')
fn('call_procedure','node callStatAt','CALL: the procedure that the name is, arguments, bindings, block.','''
    let name = child_at(m, i);
    let code = code_at(m, name);
    let x = bound(m, b, code, at % 65536);
    let tag = what(m);
    if tag >= STOP {
        return x;
    }
    let one = next_at(m, name);
    let many = arguments(m, b, c, o, at, one);
    let given = what(m);
    if given >= STOP {
        return many;
    }
    let place = place_at(m, i);
    let inside = open_procedure(m, b, at, place, many, tag, x);
    let env = what(m);
    if env >= STOP {
        return inside;
    }
    let within = with_env(at, env);
    inner(m, b, c, o, within, inside, at % 65536)
''')
out.append('''// A block within a command: the environment is as it was, `env`.
fn inner(
    m: &mut [u64; 17424],
    b: &mut &mut [u64],
    c: &mut &mut [u64],
    o: &mut &mut [i64],
    at: u64,
    i: u64,
    env: u64,
) -> u64
    ensures { λ r. ⌜ came (now (m .exit)) r (now (now (b .exit))) (now (now (c .exit))) (now (now (o .exit))) ≡
        index (λ g d within sp i m. blockC g (level g d) env within sp i m) at i
        (state (now (m .entry)) (now (now (b .entry))) (now (now (c .entry))) (now (now (o .entry)))) ⌝ }
{
    let start = child_at(m, i);
    let x = block(m, b, c, o, at, start);
    let tag = what(m);
    if tag >= STOP {
        return x;
    }
    value(m, DONE, env)
}
''')
fn('rounds','node whileAt','A WHILE: rounds, until one asks for no more.','''
    loop {
        let x = round(m, b, c, o, at, i);
        if what(m) != AGAIN {
            return x;
        }
    }
''')
fn('round','node roundAt','One round of a WHILE, which costs a unit and a level: the condition, and the block if that is 1.','''
    if !enter(m, at, i) {
        return 0;
    }
    let down = at - LEVEL;
    let child = child_at(m, i);
    let x = part(m, b, c, o, down, child);
    let tag = what(m);
    if tag >= STOP {
        return x;
    }
    if tag != 0 {
        return no_rule(m);
    }
    if x == 0 {
        return value(m, DONE, at % 65536);
    }
    if x != 1 {
        return no_rule(m);
    }
    let within = next_at(m, child);
    let start = child_at(m, within);
    let y = block(m, b, c, o, down, start);
    let end = what(m);
    if end >= STOP {
        return y;
    }
    value(m, AGAIN, at % 65536)
''')
