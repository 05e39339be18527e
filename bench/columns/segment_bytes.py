import struct,sys,random
n=int(sys.argv[1]); shape=sys.argv[2]; out=sys.argv[3]
u32=lambda x: struct.pack('<I',x); u64=lambda x: struct.pack('<Q',x)
rnd=random.Random(7)
words=['w%03d'%i for i in range(500)]
roots=[]; terms={} ; kw={} ; num={}; present=set()
for d in range(n):
    k='v%06d'%(d if shape=='unique' else rnd.randrange(1000))
    x=rnd.randrange(1<<30) if shape!='few' else rnd.randrange(100)
    text=[] if shape=='tiny' else [rnd.choice(words) for _ in range(8)]
    src=('{"k":"%s","n":%d,"t":"%s"}'%(k,x,' '.join(text))).encode() if shape!='tiny' else b'{"k":"%s"}'%k.encode()
    id=b'%d'%d
    roots.append(u32(len(id))+id+u64(d)+u32(1)+u32(len(src))+src+b'\0')
    terms.setdefault((0,k.encode()),[]).append((d,[])); kw[d]=k.encode()
    if shape!='tiny':
        terms.setdefault((1,struct.pack('>Q',x+(1<<63))),[]).append((d,[])); num[d]=x
        pos={}
        for p,w in enumerate(text): pos.setdefault(w,[]).append(p)
        for w,ps in pos.items(): terms.setdefault((2,w.encode()),[]).append((d,ps))
        present.add(d)
keys=sorted(terms)
ordn={k:i for i,k in enumerate(keys)}
b=bytearray(b'SEG2'+u32(n)+u32(1))
for w in range((n+63)//64):
    m=min(64,n-64*w); b+=u64((1<<m)-1)
for r in roots: b+=r
b+=u64(len(keys))
for f,t in keys:
    b+=u32(f)+u32(len(t))+t+u32(len(terms[(f,t)]))
    for d,ps in terms[(f,t)]:
        b+=u32(d)+u32(len(ps))
        for p in ps: b+=u32(p)
b+=u32(1)+u32(0)+u32(n)
for d in range(n): b+=u32(d)+u32(1)+u64(ordn[(0,kw[d])])
if shape!='tiny':
    b+=u32(1)+u32(1)+u32(n)
    for d in range(n): b+=u32(d)+u32(1)+struct.pack('<q',num[d])
    b+=u32(1)+u32(2)+u32(n)
    for d in range(n): b+=u32(d)
else:
    b+=u32(0)+u32(0)
open(out,'wb').write(b); print(shape,n,len(b),len(keys))
