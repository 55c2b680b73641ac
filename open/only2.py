"""only2.py TOP RLIBS CRATE [--test] [--holes] WORD..: checks functions of a crate over built crates below (RLIBS/NAME.rlib), and over the sources of those that aren't built. It proves nothing of the lower crates."""
import re, subprocess, sys, os
top, rlibs, crate, words = sys.argv[1], sys.argv[2], sys.argv[3], sys.argv[4:]
deps={}
for l in open(top+'/crates.txt'):
    m=re.match(r'([a-z_0-9]+):(.*)',l.strip())
    if m: deps[m.group(1)]=m.group(2).split()
need=[]
def visit(n):
    for d in deps[n]:
        if d in deps and d not in need:
            visit(d)
            if d not in need: need.append(d)
visit(crate)
kit=sorted({d for n in need+[crate] for d in deps[n] if d not in deps})
R='/opt/rattle'
args=[R+'/bin/rattle','check','--crate-name',crate,'src/lib.rt','--extern',f'std={R}/rlibs/std.rlib','-L',f'dependency={R}/rlibs','--extern',f'core={R}/rlibs/core.rlib']
for k in kit: args+=['--extern',f'{k}={R}/rlibs/{k}.rlib']
args+=['-L',f'dependency={rlibs}']
for n in need:
    if os.path.isdir(f'{rlibs}/{n}.rlib'):
        args+=['--extern',f'{n}={rlibs}/{n}.rlib']
    else:
        uses=','.join(['core','std']+deps[n])
        args+=['--lib',f'{n}:{uses}={top}/crates/{n}/src/lib.rt']
inc='/tmp/top-incremental-'+crate
args+=['--antt-project',R+'/rattle/logic/antt-project.json','--logic-built',R+'/logic_built','--links',crate+'=','--jobs','1','--incremental',inc]
holes = '--holes' in words
if '--test' in words: args+=['--test']
for w in words:
    if w not in ('--holes','--test'): args+=['--only',w]
if holes: args+=['--allow-holes']
os.makedirs(inc,exist_ok=True)
os.chdir(f'{top}/crates/{crate}')
sys.exit(subprocess.run(args).returncode)
