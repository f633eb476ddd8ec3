#!/usr/bin/env python3
"""Refuses each allocation of small calls of bilv in turn.

usage: run.py BILV [--patch] [--only NAME ..]

It is no part of the gate: gcc builds `failalloc.c`, which is loaded before the program.

For each case the program is run once as it is; its status and first line are compared with what is due. Then, for the allocation
numbers 1 to the last, once with that allocation alone refused (each) and once with it and all later ones refused (each_from). Each
such run is to end with the due answer, whole, or with status 8 and nothing written. What ends otherwise is an exception.
--patch: the program carries its own malloc (the build with run-time checks).
"""
import os
import struct
import subprocess
import sys
import tempfile

HERE = os.path.dirname(os.path.abspath(__file__))


def elf(words, machine=243, big=False, vaddr=0x10000):
    e = '>' if big else '<'
    n = 4 * len(words)
    head = b'\x7fELF' + bytes([1, 2 if big else 1, 1]) + bytes(9)
    head += struct.pack(e + 'HHIIIIIHHHHHH', 2, machine, 1, vaddr, 52, 0, 0, 52, 32, 1, 0, 0, 0)
    head += struct.pack(e + '8I', 1, 84, vaddr, vaddr, n, n, 5, 4)
    return head + b''.join(struct.pack(e + 'I', w) for w in words)


def rv(*words):
    return elf(words)


def arm(*words):
    return elf(words, 40)


def notes(*lines):
    return ('\n'.join(('entry 0x10000',) + lines) + '\n').encode()


ADD = rv(0x00150513, 0x00008067)
DOWN = rv(0xFFF50513, 0xFE051EE3, 0x00008067)
CERT = b'p cnf 2 4\n1 2 0\n1 -2 0\n-1 2 0\n-1 -2 0\nproof\n5 1 0 1 2 0\n6 0 5 3 4 0\n'
REPORT = None
HEAD_REPORT = None
INDUCTIVE = b'notes 2\nentry 0x10000\nrequire a0 != 0\ninvariant 0x10000 a0 != 0 and ra = old(ra)\nensure a0 = 0\n'
BROKEN = b'notes 2\nentry 0x10000\nrequire a0 = 9\ninvariant 0x10000 a0 >u 5\n'
MODEL = b'sat\n((define-fun x10 () (_ BitVec 32) #xffffffff))\n'

CASES = {
    # name: (words before the files, files, words behind them, status, first line)
    'holds': (['verify'], [ADD, notes('ensure a0 = old(a0) + 1')], [], 0, 'holds'),
    'fails': (['verify'], [ADD, notes('ensure a0 >u old(a0)')], [], 1, 'fails ensure 2 at 0x00010004 step 1'),
    'arm shift': (['verify'], [arm(0xE1B00020, 0xE1A0F00E), notes('ensure r0 = 0 and C = (old(r0) >> 31)')], [], 0, 'holds'),
    'arm shift by r2': (['verify'], [arm(0xE1B00211, 0xE1A0F00E), notes('require r2 = 32', 'ensure r0 = 0 and C = (old(r1) & 1)')], [], 0,
                 'holds'),
    'call': (['verify'], [rv(0x00008313, 0x00000097, 0x00C080E7, 0x00030067, 0x00150513, 0x00008067),
                            notes('ensure a0 = old(a0) + 1')], [], 0, 'holds'),
    'accepted': (['check'], [CERT], [], 0, 'accepted'),
    'refused': (['check'], [CERT.replace(b'5 1 0 1 2 0', b'5 1 0 1 0')], [], 9, 'proof: line 1 L8 NoConflict'),
    'lift': (['lift'], [rv(0x00150513, 0x00000000, 0x02B55533, 0x00A5A023)], [], 0, '0x00010000 13051500'),
    'lift arm': (['lift'], [arm(0xE1B00211, 0xE0100291, 0xE92D4010, 0xE8BD8010)], [], 0, '0x00010000 1102b0e1'),
    'graph': (['graph'], [DOWN, notes()], [], 0, '0x00010000 n 0x00010004'),
    'graph arm': (['graph'], [arm(0xE1B00020, 0xE1A0F00E), notes('ensure r0 = 0 and C = (old(r0) >> 31)')], [], 0,
                  '0x00010000 n 0x00010004 keeps C'),
    'smt': (['smt'], [ADD, notes('ensure a0 = old(a0) + 1')], ['--question', 'fail'], 0, '(set-logic QF_ABV)'),
    'smt memory': (['smt'], [rv(0x00A5A023, 0x00008067), notes('ensure mem32[a1] = a0')], ['--question', 'fail'], 0,
                   '(set-logic QF_ABV)'),
    'cert': (['cert'], [ADD, notes('ensure a0 = old(a0) + 1')], ['--question', 'fail'], 0, None),
    'cert sat': (['cert'], [ADD, notes('ensure a0 >u old(a0)')], ['--question', 'fail'], 1, 'satisfiable'),
    'replay': (['replay'], [ADD, notes('ensure a0 >u old(a0)'), 'REPORT'], [], 0, 'replayed fails ensure 2 at 0x00010004 step 1'),
    'replay found': (['replay'], [ADD, notes('ensure a0 >u old(a0)'), 'REPORT0'], [], 9,
                     'replay: named fails ensure 2 at 0x00010004 step 1, found exit at 0x00010004 step 1'),
    'selfrun': (['selfrun', '1', '3'], [], [], 0, 'selfrun 1 3 words 4 a0 0x000001e4 holds'),
    'verify memory': (['verify'], [rv(0x00A5A023, 0x00008067), notes('require a1 = 0xFFFFFFFF',
                      'ensure mem8[0xFFFFFFFF] = a0 & 255 and mem8[0] = a0 >> 8 & 255')], [], 0, 'holds'),
    'verify vacuous': (['verify'], [ADD, notes('require a0 <u 5', 'require a0 >u 9')], [], 0, 'vacuous'),
    'verify unroll': (['verify'], [DOWN, notes('require a0 = 3')], ['--unroll', '1'], 3,
                      'unknown unroll 1 at 0x00010004 step 3'),
    'verify conflicts': (['verify'], [ADD, notes('require a0 <u 3 and a1 <u 3 and a2 <u 3 and a3 <u 3',
                         'require a0 != a1 and a0 != a2 and a0 != a3 and a1 != a2 and a1 != a3 and a2 != a3')],
                         ['--conflicts', '1'], 3, 'unknown conflicts 1'),
    'verify points': (['verify'], [ADD, notes()], ['--points', '1'], 3, 'unknown points 1'),
    'verify size': (['verify'], [ADD, notes('ensure a0 = old(a0) + 1')], ['--size', '6655'], 3, 'unknown size 6655'),
    'usage': ([], [], [], 2, 'usage: bilv verify|lift|graph|smt|replay|cert|check|selfrun|upgrade|equal|differ|model'),
    'elf refused': (['verify'], [ADD[:51], notes()], [], 4, 'elf: E1 Short'),
    'notes refused': (['verify'], [ADD, notes('require a0 = 5 +')], [], 5, 'notes: line 2 N7 Syntax'),
    'no function': (['verify'], [ADD, b'function f\n'], [], 5, 'notes: NoFunction'),
    'upgrade': (['upgrade'], [ADD, notes('ensure a0 = old(a0) + 1')], [], 0, 'notes 2'),
    'notes 2': (['verify'], [ADD, b'notes 2\nentry 0x10000\nconst N 3\nensure all i 0 N (mem8[i] = old(mem8[i]))\n'], [], 0, 'holds'),
    'partial': (['verify'], [DOWN, INDUCTIVE], [], 0, 'holds partially'),
    'not inductive': (['verify'], [DOWN, BROKEN], [], 1, 'not inductive invariant 4 at 0x00010000 step 2'),
    'replay head': (['replay'], [DOWN, BROKEN, 'HEAD'], [], 0, 'replayed not inductive invariant 4 at 0x00010000 step 2'),
    'bx': (['verify', '--arm', 'v5'], [arm(0xE16F0F10, 0xE12FFF1E), notes('ensure r0 <=u 32')], [], 0, 'holds'),
    'model accepted': (['model'], [ADD, notes('ensure a0 >u old(a0)'), MODEL], ['--question', 'fail'], 0, 'accepted'),
    'model refused': (['model'], [ADD, notes('ensure a0 >u old(a0)'), b'sat\n((define-fun x10 () (_ BitVec 32) #xff))\n'],
                      ['--question', 'fail'], 9, 'model: line 2 A3 Sort'),
    'read fault': (['verify', '/absent/a', '/absent/b'], [], [], 6, 'read fault'),
}


def prepare(folder, case):
    before, files, behind, status, first = CASES[case]
    words = list(before)
    for i, data in enumerate(files):
        path = os.path.join(folder, 'f%d' % i)
        if data == 'HEAD':
            data = HEAD_REPORT
        elif data in ('REPORT', 'REPORT0'):
            data = REPORT if data == 'REPORT' else REPORT.replace(b'x10 0xffffffff', b'x10 0x00000000')
        with open(path, 'wb') as f:
            f.write(data)
        words.append(path)
    return words + behind, status, first


def main():
    global REPORT, HEAD_REPORT
    args = sys.argv[1:]
    bilv = os.path.abspath(args[0])
    only = args[args.index('--only') + 1:] if '--only' in args else None
    env = dict(os.environ)
    shim = os.path.join(tempfile.mkdtemp(), 'failalloc.so')
    subprocess.run(['gcc', '-O2', '-shared', '-fPIC', '-o', shim, os.path.join(HERE, 'failalloc.c'), '-ldl'], check=True)
    env['LD_PRELOAD'] = shim
    if '--patch' in args:
        env['ASAN_OPTIONS'] = 'detect_leaks=0:verify_asan_link_order=0:allocator_may_return_null=1'
        table = subprocess.run(['nm', bilv], stdout=subprocess.PIPE, text=True).stdout
        at = {x.split()[2]: x.split()[0] for x in table.splitlines() if len(x.split()) == 3}
        env['FAIL_PATCH'] = at['rattle_alloc'] + ',' + at['rattle_realloc']
    worst = 0
    total = 0
    with tempfile.TemporaryDirectory() as folder:
        words, _, _ = prepare(folder, 'fails')
        REPORT = subprocess.run([bilv] + words, stdout=subprocess.PIPE, stdin=subprocess.DEVNULL).stdout
        words, _, _ = prepare(folder, 'not inductive')
        HEAD_REPORT = subprocess.run([bilv] + words, stdout=subprocess.PIPE, stdin=subprocess.DEVNULL).stdout
        for case in CASES:
            if only and case not in only:
                continue
            words, status, first = prepare(folder, case)
            r = subprocess.run([bilv] + words, stdout=subprocess.PIPE, stdin=subprocess.DEVNULL)
            line = r.stdout.decode().split('\n')[0]
            if r.returncode != status or (first is not None and line != first):
                print('%-16s WRONG without a refusal: status %d, %r' % (case, r.returncode, line))
            expect = os.path.join(folder, 'expect')
            with open(expect, 'wb') as f:
                f.write(r.stdout)
            for mode in ('each', 'each_from'):
                report = os.path.join(folder, 'report')
                e = dict(env, FAIL_MODE=mode, FAIL_REPORT=report, FAIL_EXPECT=expect, FAIL_DIR=folder)
                q = subprocess.run([bilv] + words, stdout=subprocess.PIPE, stdin=subprocess.DEVNULL, env=e)
                lines = open(report).read().splitlines()
                right = whole = 0
                odd = []
                for x in lines:
                    if x.startswith('total'):
                        continue
                    n, kind, size, how, end, count, what = x.split()
                    if how == 'status' and int(end) == 8 and count == '0':
                        right += 1
                    elif how == 'status' and int(end) == status and what == 'whole':
                        whole += 1
                    else:
                        odd.append(x)
                ok = '' if (q.returncode, q.stdout) == (r.returncode, r.stdout) else '  PARENT DIFFERS %d' % q.returncode
                total += right + whole + len(odd)
                print('%-16s %-9s allocations %5d: status 8 and nothing %5d, the due answer %3d, exceptions %d%s'
                      % (case, mode, right + whole + len(odd), right, whole, len(odd), ok))
                for x in odd[:20]:
                    print('    ', x)
                worst += len(odd)
                sys.stdout.flush()
    print('refusals %d, exceptions %d' % (total, worst))
    return 1 if worst else 0


if __name__ == '__main__':
    sys.exit(main())
