import shutil,re,subprocess,os
d='v/final-short'
shutil.rmtree(d,ignore_errors=True); shutil.copytree('v/final-memo',d)
for f in ('coding','gate'):
    p=d+'/crates/%s/src/lib.rt'%f; s=open(p).read(); s=s.replace('[u64; 8195]','[u64; 17424]').replace('[0u64; 8195]','[0u64; 17424]')
    if f=='gate':
        i=s.index('    let mut prog = [0u64; 17424];'); j=s.index('    evalq::run(&mut m')
        s=s[:i]+'''    let mut m = [0u64; 17424];
    write_program(text, tree, &mut m);
    let most_bindings = limits.bindings.number();
    let most_cells = limits.cells.number();
    let fuel = limits.fuel.number();
    m[8192] = most_bindings;
    m[8193] = most_cells;
    m[8194] = limits.output.number();
    m[8200] = fuel;
'''+s[j:]
        s=s.replace('''    clear_words(waiting, WAITING_ENTRIES);
    clear_words(bindings, 2 * (most_bindings as usize));''','''    clear_words(bindings, 2 * (most_bindings as usize));''',1)
        # copy only the words that there are
        s=re.sub(r'    let mut i = 0;\n    while i < reading::TREE_WORDS \{\n        prog\[i\] = entry\(tree, i as u64\);\n        i \+= 1;\n    \}','''    let mut i = 0;
    while i < reading::TREE_WORDS {
        let w = entry(tree, i as u64);
        if w == 0 { return; }
        prog[i] = w;
        i += 1;
    }''',s)
    open(p,'w').write(s)
r=subprocess.run(['../shared/bench/lower',d,'final-short.so'],capture_output=True,text=True); print(r.stdout[-1500:],r.stderr[-500:])
