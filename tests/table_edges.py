#!/usr/bin/env python3
"""Works out what the program table_edges has to write, from the scope document and its requests alone, and says whether the stored files
agree.

    tests/table_edges.py            compare the data, args and stdout of crates/table_edges with what is worked out here
    tests/table_edges.py --write    write them anew
"""
import os, re, sys

HERE = os.path.join(os.path.dirname(os.path.abspath(__file__)), "..", "crates", "table_edges")
def lines(b):
    out=[];i=0
    for end in re.finditer(rb'\r\n|\r|\n',b): out.append((i,b[i:end.start()])); i=end.end()
    if i<len(b): out.append((i,b[i:]))
    return out
def read(b):
    if len(b)>65535: return ('E',21,65535)
    L=lines(b); end=len(b)
    def get(k): return L[k] if k<len(L) else None
    def need(k,num,ok):
        x=get(k)
        if x is None: return ('E',num,end)
        if not ok(x[1]): return ('E',num,x[0])
    def cnt(k):
        x=get(k)
        if x is None: return ('E',23,end)
        c=x[1]
        if not(1<=len(c)<=4 and all(48<=d<=57 for d in c)): return ('E',23,x[0])
        return int(c)
    e=need(0,22,lambda c:c==b'B') or need(1,25,lambda c:len(c)<=80)
    if e: return e
    R=cnt(2)
    if isinstance(R,tuple): return R
    if R>512: return ('E',24,L[2][0])
    n=cnt(3)
    if isinstance(n,tuple): return n
    if not 1<=n<=64: return ('E',24,L[3][0])
    e=need(4,25,lambda c:c==b'')
    if e: return e
    k=5
    for i in range(R+n):
        e=need(k,26,lambda c:1<=len(c)<=80)
        if e: return e
        k+=1
    rows=[]
    for i in range(R):
        e=need(k,27,lambda c:len(c)==n and all(x in b'Xx.?' for x in c))
        if e: return e
        c=L[k][1]; rows.append((sum(1<<j for j in range(n) if c[j:j+1] in(b'X',b'x')),sum(1<<j for j in range(n) if c[j:j+1]==b'.')))
        k+=1
    last=k
    while k<len(L):
        if L[k][1]!=b'': return ('E',28,L[k][0])
        k+=1
    off=lambda k: L[k][0] if k<len(L) else end
    names=[len(L[5+i][1]) for i in range(R)]; attrs=[len(L[5+R+i][1]) for i in range(n)]
    out=[R,n,off(5),off(5+R),off(5+R+n)]
    if R: out+=list(rows[0])+list(rows[-1])
    out+=([names[0],names[-1]] if R else [0])+[0]+[attrs[0],attrs[-1],0]
    tail=' complete'
    for i in range(R):
        if b'?' in L[5+R+n+i][1]: tail=' E 29 %d'%L[5+R+n+i][0]; break
    return ('T',out,tail)
def show(name,b):
    r=read(b)
    if r[0]=='E': return '%s E %d %d'%(name,r[1],r[2])
    return name+''.join(' %d'%x for x in r[1])+r[2]
def table(R,n,mark=lambda i,j:'X' if (i+j)%3==0 else '.',title='t',nl='\n',last=True,rn=lambda i:'r%d'%i,an=lambda j:'a%d'%j,rc=None,nc=None):
    L=['B',title,rc if rc is not None else str(R),nc if nc is not None else str(n),'']
    L+=[rn(i) for i in range(R)]+[an(j) for j in range(n)]+[''.join(mark(i,j) for j in range(n)) for i in range(R)]
    s=nl.join(L)+(nl if last else '')
    return s.encode()
F=[]
def add(n,b): F.append((n,b))
ex=table(4,3,mark=lambda i,j:['XX.','.X.','.XX','...'][i][j])
add('example',ex); add('no-last-feed',ex[:-1]); add('crlf',ex.replace(b'\n',b'\r\n')); add('crlf-no-last-feed',ex.replace(b'\n',b'\r\n')[:-1]); add('crlf-no-last-end',ex.replace(b'\n',b'\r\n')[:-2])
add('return-in-name',table(1,2,rn=lambda i:'r\rx')); add('return-in-marks',table(1,2,mark=lambda i,j:'X\r'[j])); add('return-alone-blank',ex.replace(b'3\n\n',b'3\n\r\r\n',1)); add('two-returns',ex.replace(b'a0\n',b'a0\r\r\n'))
add('properties-64',table(2,64)); add('properties-65',table(2,65)); add('properties-0',table(1,1,nc='0000')); add('properties-63',table(2,63,mark=lambda i,j:'x.'[i]))
add('rows-512',table(512,2)); add('rows-513',table(513,2)); add('rows-0',table(0,3)); add('rows-0000',table(0,3,rc='0000')); add('rows-00000',table(0,3,rc='00000')); add('rows-empty',table(0,3,rc='')); add('rows-sign',table(1,3,rc='+1')); add('rows-9999-abc',table(1,3,rc='9999',nc='abc')); add('rows-0-tail',table(0,3)+b'\n\n'); add('rows-0-no-last-feed',table(0,3)[:-1])
add('title-80',table(1,1,title='t'*80)); add('title-81',table(1,1,title='t'*81)); add('title-80-crlf',table(1,1,title='t'*80,nl='\r\n')); add('title-empty',table(1,1,title=''))
add('name-80',table(1,1,rn=lambda i:'n'*80)); add('name-81',table(1,1,rn=lambda i:'n'*81)); add('name-80-crlf',table(1,1,rn=lambda i:'n'*80,nl='\r\n')); add('name-empty',table(1,1,an=lambda j:''))
add('unknown',table(2,3,mark=lambda i,j:['X.x','.?X'][i][j])); add('unknown-then-bad',table(3,3,mark=lambda i,j:['X?x','...','.!X'][i][j])); add('marks-short',table(2,3,mark=lambda i,j:'X' if i==0 or j<2 else '')); add('marks-long',table(1,3,mark=lambda i,j:'XX' if j==0 else '.'))
add('tail-empty-lines',ex+b'\n\r\n\n'); add('tail-not-empty',ex+b'\n\nx\n'); add('tail-space',ex+b' '); add('letter-b',b'b'+ex[1:]); add('letter-BB',b'B'+ex); add('empty',b'')
pad=65535-len(ex); add('bytes-65535',ex+b'\n'*pad); add('bytes-65536',ex+b'\n'*(pad+1))
L=ex.split(b'\n')
for k in range(len(L)): add('cut-%02d'%k,b'\n'.join(L[:k])+(b'\n' if k else b'')); 
for k in range(1,len(L)): add('cut-%02d-no-feed'%k,b'\n'.join(L[:k]))
def ended(b,*ends):
    lines=b.split(b'\n'); return b''.join(l+ends[i%len(ends)] for i,l in enumerate(lines[:-1]))
CR,LF,BOTH=b'\r',b'\n',b'\r\n'
cr=ended(ex,CR)
add('cr',cr); add('cr-no-last-end',cr[:-1]); add('cr-last-of-crlf',ended(ex,BOTH)[:-1]); add('cr-at-end-alone',ex[:-1]+CR); add('cr-two-at-end',cr+CR)
add('cr-cr-lf-last',ex[:-1]+CR+BOTH); add('cr-cr-lf-tail',ex[:-1]+CR+BOTH+b'x'); add('lf-cr-last',ex+CR); add('lf-cr-tail',ex+CR+b'x'); add('lf-cr-blank',ex.replace(b'3\n\n',b'3\n\r',1)); add('cr-cr-lf-blank',ex.replace(b'3\n\n',b'3\r\r\n',1)); add('cr-lf-blank-lost',ex.replace(b'3\n\n',b'3\r\n',1))
add('cr-in-title',table(1,2,title='t\rx')); add('cr-in-name',table(2,2,rn=lambda i:'rx'[i]).replace(b'r\nx',b'r\rx')); add('cr-in-last-name',table(1,2,an=lambda j:['a','b\rc'][j])); add('cr-in-marks',table(2,2).replace(b'X.\n..',b'X.\r..'))
add('mixed',ended(ex,LF,CR,BOTH)); add('mixed-cr-first',ended(ex,CR,BOTH,LF)); add('mixed-no-last-end',ended(ex,BOTH,LF,CR).rstrip(b'\r\n'))
add('cr-count-bad',ended(table(1,3,rc='x'),CR)); add('cr-name-81',ended(table(1,1,rn=lambda i:'n'*81),CR)); add('cr-marks-short',ended(table(2,3,mark=lambda i,j:'X' if i==0 or j<2 else ''),CR)); add('cr-tail',cr+b'x'); add('cr-rows-0',ended(table(0,3),CR)); add('cr-rows-0-no-last-end',ended(table(0,3),CR)[:-1])
for n,e in [('cr',CR),('lf',LF),('crlf',BOTH)]: add('names-80-'+n,ended(table(2,2,title='t'*80,rn=lambda i:'n'*80,an=lambda j:'a'*80),e)); add('name-81-'+n,ended(table(1,2,an=lambda j:'a'*(80+j)),e))
add('cr-unknown',ended(table(3,3,mark=lambda i,j:['X.x','.?X','?..'][i][j]),CR)); add('cr-unknown-no-last-end',ended(table(2,3,mark=lambda i,j:['X.x','.X?'][i][j]),CR)[:-1]); add('mixed-unknown',ended(table(2,3,mark=lambda i,j:['X.x','.?X'][i][j]),BOTH,CR,LF))
add('cr-bytes-65535',cr+CR*(65535-len(cr)))
for k in range(1,len(L)): add('cr-cut-%02d'%k,CR.join(L[:k])+CR)
files = {"data/" + n: b for n, b in F}
files["args"] = ("\n".join(n for n, _ in F) + "\n").encode()
files["stdout"] = ("\n".join(show(n, b) for n, b in F) + "\n").encode()
if "--write" in sys.argv:
    for name, b in files.items():
        with open(os.path.join(HERE, name), "wb") as f:
            f.write(b)
stored = {"data/" + n for n in os.listdir(os.path.join(HERE, "data"))} | {"args", "stdout"}
bad = sorted(stored ^ set(files))
for name, b in files.items():
    if name in stored and open(os.path.join(HERE, name), "rb").read() != b:
        bad.append(name)
print("\n".join("differs: " + n for n in bad) if bad else f"{len(F)} table files, all as worked out")
sys.exit(1 if bad else 0)
