#!/usr/bin/env python3
"""Renames what Rattle generates for a proof by hand, in a crate's proofs/F/Proof.antt, from an older Rattle's names to today's: goals, places, steps,
loops and the theorem. It goes by text; the check decides.

usage: rt check --generated FOLDER --old-names     in the crate's folder, which writes FOLDER/names.json
       python3 tools/mend_names.py FOLDER/names.json CRATE_FOLDER [FUNCTION..]
"""
import json,re,sys,os
def norm(s): return s.replace('_','-')
def spec_args(text):
    m=list(re.finditer(r'tie\.(?:spec|spec-by|walk)\b',text))
    if not m: return None
    i=m[-1].end(); args=[]; depth=0; n=len(text); cur=''
    while i<n:
        ch=text[i]
        if ch in '({[': depth+=1
        if ch in ')}]':
            if depth==0: break
            depth-=1
        if ch.isspace() and depth==0:
            if cur: args.append(cur); cur=''
        else: cur+=ch
        i+=1
    if cur: args.append(cur)
    return args
def mend(text,info,func):
    said=[]
    needs=info['needs']; places={}; steps={}; raws={}
    for p,newname in zip(info['places'],info['places_by_name']):
        places[norm(p[0])]=newname
        st=p[2]
        if st and st[0]:
            if norm(st[0]) in steps and steps[norm(st[0])]!=st[1]: said.append(f'{func}: step {st[0]} is {steps[norm(st[0])]} and {st[1]}')
            steps[norm(st[0])]=st[1]
            for a,b in p[4] or []:
                if b.endswith('-raw'): raws[(st[1],a)]=b
    for lp in info['loops']:
        (o,nw)=lp[0]
        places[norm('invariant-'+o)]='invariant-'+nw; places[norm('decreases-'+o)]='decreases-'+nw
        places[norm('Inv-'+o)]='invariant-'+nw; places[norm('μ-'+o)]='decreases-'+nw
    args=spec_args(text)
    mapping={}
    if args is not None:
        goals=[a for a in args if not re.match(r'(invariant|decreases|Inv|μ|ghost)[-_]?',a)]
        if len(goals)==len(needs):
            for a,(o,nw) in zip(goals,needs): mapping.setdefault(a,[]).append(nw)
        else:
            said.append(f'{func}: tie.spec has {len(goals)} answers, {len(needs)} goals: {goals} vs {needs}')
    bynorm={norm(o):nw for o,nw in needs}
    out=[]
    for l in text.split('\n'):
        m=re.match(r'^(\s*\S+(?: \S+)*?) : tie\.Need-([^\s(){}]+)(.*)$',l)
        if m and m[1].strip() in mapping:
            l=f'{m[1]} : tie.Need-{mapping[m[1].strip()][0]}{m[3]}'
            if len(set(mapping[m[1].strip()]))>1: said.append(f'{func}: {m[1]} answers {mapping[m[1].strip()]}')
        elif m:
            k=norm(m[2]); k2=re.sub(r'^overflow-','',k)
            if k in bynorm: l=f'{m[1]} : tie.Need-{bynorm[k]}{m[3]}'
            elif k2 in bynorm: l=f'{m[1]} : tie.Need-{bynorm[k2]}{m[3]}'
            else: said.append(f'{func}: no goal for {m[1]} : {m[2]}')
        out.append(l)
    text='\n'.join(out)
    text=re.sub(r'tie\.([^\s(){}.,;]+)',lambda m: 'tie.'+places.get(norm(m[1]),m[1]) if not m[1].startswith('Need-') else m[0],text)
    def step_sub(m):
        w=m[1]
        return '.'+steps.get(norm(w),w)
    text=re.sub(r'(?<=[\w\')])\.([A-Za-z_][^\s(){}\[\].,;\"«»`\\]*)',step_sub,text)
    for (st,a),b in raws.items():
        text=re.sub(r'\.'+re.escape(st)+r'\.'+a+r'(?![\w-])','.'+st+'.'+b,text)
    return text,said
def run(names,crate,only=()):
    d=json.load(open(names))
    for k,info in d.items():
        if not k.startswith('Rattle-') or not k.endswith('.Lts'): continue
        path=k.split('-proofs.',1)[1][:-4].replace('.','/')
        f=f'{crate}/proofs/{path}/Proof.antt'
        if not os.path.exists(f): continue
        if only and path not in only: continue
        t=open(f).read()
        new,said=mend(t,info,path)
        fn=path.split('/')[-1]
        new=re.sub(r'^pub (\S+)[-_]spec\b',lambda m:'pub '+fn+'_spec',new,flags=re.M)
        new=re.sub(r'^\S+[-_]spec =',fn+'_spec =',new,flags=re.M)
        for s in said: print(s)
        if new!=t: open(f,'w').write(new)
if __name__=='__main__': run(sys.argv[1],sys.argv[2],sys.argv[3:])
