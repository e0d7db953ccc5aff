import sys, os, shutil, re, subprocess
name, ref, memo = sys.argv[1], sys.argv[2], sys.argv[3]
src = open(sys.argv[4] if len(sys.argv) > 4 else 'src/lib.rt').read()
B, O = ('&mut [u64]', '&mut [i64]') if ref == 'slice' else ('&mut &mut [u64]', '&mut &mut [i64]')
if memo == 'none':
    M = '''fn looked(b: @B, m: &mut [u64; 9224], code: u64, env: u64) -> u64 { found(b, m, code, env) }'''
elif memo == 'memo':
    M = '''fn looked(b: @B, m: &mut [u64; 9224], code: u64, env: u64) -> u64 {
    let h = (8200 + 4 * (code % 256)) as usize;
    if m[h] == code && m[h + 1] == env {
        m[4] = m[h + 2];
        return m[h + 3];
    }
    let x = found(b, m, code, env);
    if m[4] < STOP {
        m[h] = code;
        m[h + 1] = env;
        m[h + 2] = m[4];
        m[h + 3] = x;
    }
    x
}'''
R = '''pub fn run(prog: &[u64; 8195], m: &mut [u64; 9224], b: &mut [u64], c: &mut [u64], o: &mut [i64], depth: u64) {
    ''' + ('block(prog, m, b, c, o, @ROOT);' if ref == 'slice' else '''let mut bb = b;
    let mut cc = c;
    let mut oo = o;
    block(prog, m, &mut bb, &mut cc, &mut oo, @ROOT);''') + '\n}\n'
R = R.replace('@ROOT', 'depth * LEVEL + child_at(prog, 0)' if len(sys.argv) > 4 and 'six' in sys.argv[4] else 'depth * LEVEL, child_at(prog, 0)')
if len(sys.argv) > 4 and 'one' in sys.argv[4]:
    M = M.replace('9224', '17432').replace('8200 + 4', '16400 + 4').replace('m[4]', 'm[8204]')
    R = R.replace('prog: &[u64; 8195], m: &mut [u64; 9224]', 'm: &mut [u64; 17432]').replace('prog, m', 'm').replace('(prog,', '(m,')
src = src.replace('@MEMO', M).replace('@RUN', R).replace('@B', B).replace('@O', O)
d = 'v/' + name
shutil.rmtree(d, ignore_errors=True)
shutil.copytree('base/crates', d + '/crates')
os.makedirs(d + '/crates/evalq/src')
open(d + '/crates/evalq/src/lib.rt', 'w').write(src)
g = open(d + '/crates/gate/src/lib.rt').read()
i = g.index('// Runs a program, and clears what the run used.')
j = g.index('// Within admitted limits: the tables, the verdict')
g = g[:i] + '''
fn ending_of(m: &mut [u64; 9224]) -> Answer {
    let t = m[4];
    if t < 65536 { return Answer::Done; }
    if t == 65537 { return Answer::Unset(m[5]); }
    if t != 65536 { return Answer::Type(0); }
    let p = m[6];
    match m[5] {
        20 => Answer::Fuel(p),
        21 => Answer::Depth(p),
        22 => Answer::Cells(p),
        23 => Answer::Bindings(p),
        24 => Answer::Output(p),
        25 => Answer::Range(p),
        26 => Answer::Zero(p),
        _ => Answer::Type(0),
    }
}
fn run_tree(limits: Within, text: &[u8], tree: &[u64], waiting: &mut [u64], bindings: &mut [u64], cells: &mut [u64], output: &mut [i64]) -> Report {
    let mut prog = [0u64; 8195];
    write_program(text, tree, &mut prog);
    let most_bindings = limits.bindings.number();
    let most_cells = limits.cells.number();
    let fuel = limits.fuel.number();
    prog[8192] = most_bindings;
    prog[8193] = most_cells;
    prog[8194] = limits.output.number();
    let mut m = [0u64; 9224];
    m[0] = fuel;
    evalq::run(&prog, &mut m, bindings, cells, output, limits.depth.number());
    clear_words(waiting, WAITING_ENTRIES);
    clear_words(bindings, 2 * (most_bindings as usize));
    clear_words(cells, 2 * (most_cells as usize));
    let answer = ending_of(&mut m);
    if number_of(answer) == 9 { return refused(answer); }
    Report { answer, units: fuel - m[0], bindings: m[1], cells: m[2], numbers: m[3] }
}

''' + g[j:]
g = g.replace('use running::run_program;\n', '').replace('use answers::report_of;\n', '').replace('use machine::Bounds;\n', '').replace('use tables::entry;', 'use tables::entry;')
open(d + '/crates/gate/src/lib.rt', 'w').write(g)
if len(sys.argv) > 4 and 'one' in sys.argv[4]:
    import re
    g = g.replace('9224', '17432').replace('let mut m = [0u64; 17432];', 'let mut m = [0u64; 17432]; let mut k: usize = 0; while k < 8195 { m[k] = prog[k]; k = k + 1; }').replace('evalq::run(&prog, &mut m', 'evalq::run(&mut m')
    g = re.sub(r'\bm\[(\d+)\]', lambda k: 'm[%d]' % (int(k.group(1))+8200), g)
    open(d + '/crates/gate/src/lib.rt', 'w').write(g)
if len(sys.argv) > 4 and 'final' in sys.argv[4]:
    g = g.replace('9224', '17424').replace('let mut m = [0u64; 17424];', 'let mut m = [0u64; 17424]; let mut k: usize = 0; while k < 8195 { m[k] = prog[k]; k = k + 1; }').replace('evalq::run(&prog, &mut m', 'evalq::run(&mut m').replace('t == 65537', 't == 65537')
    import re
    g = re.sub(r'\bm\[(\d+)\]', lambda k: 'm[%d]' % (int(k.group(1))+8200), g)
    open(d + '/crates/gate/src/lib.rt', 'w').write(g)
r = subprocess.run(['../shared/bench/lower', d, name + '.so'], capture_output=True, text=True)
print(r.stdout[-3000:], r.stderr[-2000:])
