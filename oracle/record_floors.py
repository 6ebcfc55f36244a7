"""Recorded cases for `floors`, from document 01's text, and from the Rust's own step_env.

model():  a plain reading of document 01: the floor by a scan of the latest look + 1 gains, and
          drops and entries kept by a plain ring beside it; the two floors must agree.
rust():   the same lines with the numbers that `oracle/run steps` prints for the gains.
Both must agree for every case; what is recorded is the Rust's.
"""
import os, random, struct, subprocess, sys, math

sys.set_int_max_str_digits(0)
OUT = sys.argv[1]
ORACLE = os.path.join(os.path.dirname(os.path.abspath(__file__)), 'run')

def f(bits): return struct.unpack('>d', struct.pack('>Q', bits))[0]
def b(x): return struct.unpack('>Q', struct.pack('>d', x))[0]

def unit(bits):
    """One gain step's gain: non-finite counts as 0.0, then kept within 0 and 1, minus zero staying."""
    x = f(bits)
    if math.isnan(x) or math.isinf(x): return 0
    if x < 0.0: return 0
    if x > 1.0: return b(1.0)
    return bits

def steps(look, gains):
    ring, taken, out = [], [], []
    for frame, g in enumerate(gains):
        u = unit(g)
        taken.append(u)
        dropped = 0
        while ring and not f(ring[-1][1]) < f(u):
            ring.pop(); dropped += 1
        while ring and frame - ring[0][0] > look:
            ring.pop(0); dropped += 1
        ring.append((frame, u))
        floor = ring[0][1]
        window = taken[max(0, frame - look):]
        least = window[0]
        for w in window[1:]:
            if f(w) <= f(least): least = w      # of equal gains the later
        assert least == floor, (frame, least, floor)
        out.append((frame, floor, dropped, len(ring)))
    return out

def rust_steps(look, gains):
    if not gains: return []
    r = subprocess.run([ORACLE, 'steps', str(look)] + ['%016x' % g for g in gains], capture_output=True, text=True, check=True)
    out = []
    for l in r.stdout.splitlines():
        d = dict(w.split('=') for w in l.split())
        out.append((int(d['frame']), int(d['floor'], 16), int(d['dropped']), int(d['kept'])))
    assert len(out) == len(gains)
    return out

HEX = set(b'0123456789abcdef')
def parse(data):
    """look, gains, number of the malformed line or None"""
    if len(data) > 60000: return None, [], 0
    look, gains, number, at = None, [], 1, 0
    while True:
        if at == len(data):
            return look, gains, (1 if number == 1 else None)
        end = data.find(b'\n', at)
        if end < 0: return look, gains, number
        line = data[at:end]
        if number == 1:
            t = line[5:]
            ok = line[:5] == b'look=' and len(t) > 0 and all(48 <= c <= 57 for c in t) and t[:1] != b'0' and 11 <= int(t) <= 4096
            if not ok: return None, [], 1
            look = int(t)
        else:
            t = line[5:]
            if not (line[:5] == b'gain=' and len(t) == 16 and all(c in HEX for c in t)): return look, gains, number
            gains.append(int(t, 16))
        number += 1
        at = end + 1

def text(data, step):
    look, gains, bad = parse(data)
    out = b''
    if look is not None:
        for fr, fl, d, k in step(look, gains):
            out += b'frame=%d floor=%016x dropped=%d kept=%d\n' % (fr, fl, d, k)
    if bad is not None: out += b'refused=25 line=%d\n' % bad
    return out

def L(look): return b'look=%d\n' % look
def G(*gs): return b''.join(b'gain=%016x\n' % (g if isinstance(g, int) else b(g)) for g in gs)

rng = random.Random(20)
cases = []
def case(name, data): cases.append((name, data))
starred = L(11) + G(1.0, 0.5, 0.75)
up = lambda n: [ (i + 1) / (n + 1) for i in range(n) ]
case('the starred input', starred)
case('a look and no gain', L(72))
case('look 11, 0.5 and then 1.0: the window ends at frame 12', L(11) + G(0.5, *[1.0] * 13))
case('look 12: one frame later', L(12) + G(0.5, *[1.0] * 14))
case('look 4096', L(4096) + G(1.0, 0.25, 0.75, 0.5, 1.0))
case('NaN patterns: quiet, signalling, negative, payloads', L(11) + G(1.0, 0x7ff8000000000000, 0.5, 0x7ff0000000000001, 0xfff8000000000000, 0xffffffffffffffff, 0x7ff4dead0000beef, 1.0))
case('both infinities', L(11) + G(0.5, 0x7ff0000000000000, 0.25, 0xfff0000000000000, 0.125))
case('negative gains', L(11) + G(0.5, -0.25, 0.5, -1e308, 0.75, -5e-324))
case('minus zero and zero: the later of equal gains', L(11) + G(0.0, -0.0, 0.0, -0.0, 0.5, 0.0, -0.25, -0.0, 1.0))
case('gains above 1', L(11) + G(1.0, 1.5, 2.0, 1e308, 0x3ff0000000000001, 0.5, 3.0))
case('subnormal gains and the neighbours of 1', L(11) + G(5e-324, 1e-310, 2.2250738585072014e-308, 0x3fefffffffffffff, 1.0, 0x000fffffffffffff, 5e-324))
case('300 rising gains, look 11', L(11) + G(*up(300)))
case('300 falling gains, look 11', L(11) + G(*up(300)[::-1]))
case('equal gains only', L(11) + G(*[0.625] * 40))
case('random gains, look 64', L(64) + G(*[rng.random() for _ in range(500)]))
case('random gains of four values, look 20', L(20) + G(*[rng.choice([0.0, -0.0, 0.5, 1.0]) for _ in range(400)]))
case('random bit patterns, look 31', L(31) + G(*[rng.getrandbits(64) for _ in range(300)]))
case('700 rising gains, look 4096: kept goes up to 700', L(4096) + G(*up(700)))
case('rising, one small gain, rising: a step that drops 300', L(512) + G(*up(300), 0.001, *up(60)))
case('gains in waves, look 100', L(100) + G(*[0.5 + 0.5 * math.sin(i / 9.0) for i in range(500)]))
long = L(4096) + G(*up(2726))
case('exactly 60,000 bytes: 2,726 gains and a line that is cut off', (long + b'gain=3ff0000000000000\n')[:60000])
case('60,001 bytes: refused as a whole', (long + b'gain=3ff0000000000000\n')[:60001])
case('60,001 newlines', b'\n' * 60001)
case('60,000 newlines: line 1', b'\n' * 60000)
case('no input', b'')
case('one newline', b'\n')
case('a look without its newline', b'look=11')
case('a last gain without its newline', starred[:-1])
case('a carriage return after the look', b'look=11\r\n' + G(1.0))
case('a carriage return after the second gain', L(11) + G(1.0) + b'gain=3fe0000000000000\r\n' + G(1.0))
case('a leading zero', b'look=011\n' + G(1.0))
case('look 10', L(10) + G(1.0))
case('look 4097', L(4097) + G(1.0))
case('look 9999', L(9999) + G(1.0))
case('a space before the look', b'look= 11\n' + G(1.0))
case('a space after the look', b'look=11 \n' + G(1.0))
case('a look with no digits', b'look=\n' + G(1.0))
case('a look of one digit', b'look=9\n' + G(1.0))
case('a look that is no decimal', b'look=1a\n' + G(1.0))
case('a look with a sign', b'look=+11\n' + G(1.0))
case('a look that would wrap 64 bits to 11', b'look=18446744073709551627\n' + G(1.0))
case('an uppercase word', b'Look=11\n' + G(1.0))
case('uppercase digits', L(11) + G(1.0) + b'gain=3FE0000000000000\n' + G(0.5))
case('15 digits', L(11) + G(1.0) + b'gain=3fe000000000000\n' + G(0.5))
case('17 digits', L(11) + G(1.0) + b'gain=3fe00000000000000\n' + G(0.5))
case('17 digits and no newline', L(11) + G(1.0) + b'gain=ffffffffffffffff0')
case('a digit past f', L(11) + G(1.0, 0.5) + b'gain=3fe000000000000g\n' + G(0.5))
case('a gain before the look', G(1.0) + L(11))
case('a second look', starred + L(11) + G(1.0))
case('an empty line in the middle', starred + b'\n' + G(1.0))
case('an empty line at the end', starred + b'\n')
case('garbage at the end', starred + b'the end')
case('a gain with a space', L(11) + b'gain= 3ff0000000000000\n')
case('a gain with 0x', L(11) + b'gain=0x3ff00000000000\n')
case('a gain with no digits', L(11) + G(0.5) + b'gain=\n')
case('a NUL in a gain', L(11) + G(0.5) + b'gain=3ff000000000000\x00\n')
case('a NUL for the newline', b'look=11\x00' + G(0.5))
case('a NUL at the start', b'\x00' + starred)
case('bytes above 127', b'\xef\xbb\xbf' + starred)
case('bytes around the digits', L(11) + G(0.5) + b'gain=/:`0000000000000\n')
case('a very long first line', b'look=11' + b'1' * 50000 + b'\n' + G(1.0))
case('a very long gain line', L(11) + G(1.0) + b'gain=' + b'0' * 40000 + b'\n')
case('refused at line 102', L(11) + G(*up(100)) + b'gain\n' + G(1.0))
case('refused at line 1002', L(40) + G(*[rng.random() for _ in range(1000)]) + b'gain=3ff0000000000000 \n')

assert len(cases) <= 99
os.makedirs(OUT, exist_ok=True)
names = []
for n, (name, data) in enumerate(cases, 1):
    m, r = text(data, steps), text(data, rust_steps)
    assert m == r, name
    assert len(r) <= 160000
    open(f'{OUT}/{n:02}.in', 'wb').write(data)
    open(f'{OUT}/{n:02}.out', 'wb').write(r)
    names.append(f'{n:02} {name}')
open(f'{OUT}/names', 'w').write('\n'.join(names) + '\n')
print(len(cases), 'cases,', sum(1 for _, d in cases if b'refused' not in text(d, steps)), 'good')
