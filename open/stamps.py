#!/usr/bin/env python3
"""stamps.py CLONE RLIBFOLDER...: copies compiled crates (NAME/out/rlib/NAME.rlib of a gate's copy) into CLONE and writes rt's stamps, so that rt plant there builds nothing below anew. Only where the crate's files are the same in both."""
import sys, os, shutil, filecmp, importlib.machinery, importlib.util
sys.dont_write_bytecode=True
l=importlib.machinery.SourceFileLoader("rtlib","/opt/rattle/bin/rtlib.py")
s=importlib.util.spec_from_loader("rtlib",l); rtlib=importlib.util.module_from_spec(s); sys.modules["rtlib"]=rtlib; l.exec_module(rtlib)
made=rtlib.Crate.stamp
memo={}
def stamp(crate):
    if crate.folder not in memo: memo[crate.folder]=made(crate)
    return memo[crate.folder]
rtlib.Crate.stamp=stamp
clone=os.path.abspath(sys.argv[1]); sources=sys.argv[2:]
os.chdir(clone)
def same(a,b):
    for part in ("src","specs","proofs"):
        fa=sorted(os.path.relpath(os.path.join(d,f),a) for d,_,fs in os.walk(f"{a}/{part}") for f in fs)
        fb=sorted(os.path.relpath(os.path.join(d,f),b) for d,_,fs in os.walk(f"{b}/{part}") for f in fs)
        if fa!=fb or any(open(f"{a}/{f}","rb").read()!=open(f"{b}/{f}","rb").read() for f in fa): return False
    return True
done={}
n=0
for crate in rtlib.crates_below(f"{clone}/crates"):
    if crate.is_program: continue
    # a crate counts only if all those below it were taken too
    if any(not done.get(d.name) for d in crate.below()): done[crate.name]=False; continue
    kept=f"{crate.folder}/out/rlib/stamp"
    if os.path.isdir(crate.rlib) and rtlib.text_of(kept)==crate.stamp(): done[crate.name]=True; continue
    done[crate.name]=False
    for src in sources:
        f=f"{src}/crates/{crate.name}"
        r=f"{f}/out/rlib/{crate.name}.rlib"
        if os.path.isdir(r) and same(f,crate.folder):
            shutil.rmtree(f"{crate.folder}/out/rlib",ignore_errors=True)
            os.makedirs(f"{crate.folder}/out/rlib")
            shutil.copytree(r,crate.rlib,copy_function=os.link)
            open(kept,"w").write(crate.stamp()); done[crate.name]=True; n+=1; break
print("taken",n,"of",len(done),"; not:",*[k for k,v in done.items() if not v])
