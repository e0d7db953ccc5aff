import re
s = open('src/lib.rt').read()
s = s.replace('const LEVEL: u64 = 4294967296;', 'const LEVEL: u64 = 281474976710656;\nfn to(at: u64, i: u64) -> u64 { at / 65536 * 65536 + i % 65536 }\nfn env_in(at: u64) -> u64 { at / 65536 % 65536 }\nfn row_in(at: u64) -> u64 { at / 4294967296 % 65536 }\n')
s = s.replace('fn with_env(at: u64, env: u64) -> u64 { at / 65536 * 65536 + env % 65536 }', 'fn with_env(at: u64, env: u64) -> u64 { at / 4294967296 * 4294967296 + env % 65536 * 65536 + at % 65536 }')
s = s.replace('at / LEVEL * LEVEL + (at / 65536 % 65536 % 4096 + 1) % 4096 * 65536 + at % 65536', 'at / LEVEL * LEVEL + (at / 4294967296 % 65536 % 4096 + 1) % 4096 * 4294967296 + at % 4294967296')
out = []
fns = re.split(r'(?m)^(?=(?:pub )?fn )', s)
cyc = 'part evaluate choice both either applied operation call entered_body arguments alloc nth len vset block command constant echo set returned branch call_procedure rounds round definition'.split()
for f in fns:
    m = re.match(r'(?:pub )?fn (\w+)', f)
    name = m and m.group(1)
    if name in cyc:
        f = f.replace('at: u64, i: u64) -> u64 {\n', 'at: u64) -> u64 {\n    let i = at % 65536;\n', 1)
        f = f.replace('at % 65536)', 'env_in(at))').replace('+ at % 65536', '+ env_in(at)').replace('at % 65536,', 'env_in(at),').replace('here % 65536', 'env_in(here)').replace('here / 65536 % 65536', 'row_in(here)')
        f = f.replace('let env = at % 65536;', 'let env = env_in(at);')
    f = f.replace('at / 65536 % 65536, taken', 'row_in(at), taken')
    if name == 'inner':
        f = f.replace('block(prog, m, b, c, o, at, child_at(prog, i))', 'block(prog, m, b, c, o, to(at, child_at(prog, i)))')
    def fix(mm):
        return mm.group(0)
    # calls
    for g in cyc:
        pat = re.compile(r'\b' + g + r'\(prog, m, b, c, (o, )?(at|down|here|with_env\(at, m\[4\]\)), ')
        k = 0
        while True:
            mm = pat.search(f, k)
            if not mm: break
            # find the end of the call
            p = mm.end(); d = 0; q = p
            while True:
                ch = f[q]
                if ch == '(': d += 1
                elif ch == ')':
                    if d == 0: break
                    d -= 1
                q += 1
            arg = f[p:q]
            a = mm.group(2)
            new = g + '(prog, m, b, c, ' + (mm.group(1) or '') + (a if arg == 'i' else 'to(%s, %s)' % (a, arg)) + ')'
            f = f[:mm.start()] + new + f[q+1:]
            k = mm.start() + len(new)
    out.append(f)
s = ''.join(out)
s = s.replace('plain(prog, m, b, c, at, i, w)', 'plain(prog, m, b, c, at, i, w)')
s = re.sub(r'(fn plain.*?)at % 65536', r'\1env_in(at)', s, flags=re.S)
open('src/six.rt', 'w').write(s)
