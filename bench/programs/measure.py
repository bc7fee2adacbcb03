"""Times the proved programs beside the second program, by turns on the same jobs: `run` through `calls`, and the whole of `aisle`, `renew` and `keep_depth`."""
import statistics, subprocess, sys, time

calls, aisle, renew, keep_depth, second = sys.argv[1:]


def told(command, given):
    return subprocess.run(command, input=given, capture_output=True, check=True).stdout


def compared(ours, plain, given):
    """What both print, which must be the same, and the median seconds that each takes."""
    said = told(ours, given)
    assert said == told(plain, given), 'the outputs differ'
    took = [[], []]
    for _ in range(9):
        for i, command in enumerate((ours, plain)):
            begun = time.perf_counter()
            subprocess.run(command, input=given, stdout=subprocess.DEVNULL, check=True)
            took[i].append(time.perf_counter() - begun)
    return said, [statistics.median(t) for t in took]


print(f'{"":20}{"run, decisions per second":>34}{"aisle, whole program":>30}')
print(f'{"floor":7}{"depth":>6}{"decisions":>11}{"proved":>12}{"plain":>12}{"ratio":>7}{"proved ms":>12}{"plain ms":>11}{"ratio":>7}')
for kind in ('rooms', 'walls', 'racks', 'maze', 'snake'):
    for depth in (1, 4, 8):
        job = [second, 'time', 'run', kind, '64', '64', '1', '400', str(depth)]
        lines, a = compared([aisle], [second, 'aisle'], told(job + ['--as-aisle'], b''))
        decisions = sum(int(line.split()[1]) for line in lines.splitlines()[:-1])
        _, r = compared([calls], [second, 'calls'], told(job + ['--as-calls'], b''))
        print(f'{kind:7}{depth:6}{decisions:11}{decisions / r[0]:12.0f}{decisions / r[1]:12.0f}{r[1] / r[0]:7.2f}'
              f'{a[0] * 1000:12.2f}{a[1] * 1000:11.2f}{a[1] / a[0]:7.2f}', flush=True)

# The last table of edition 1, 4,096 records, behind 100 MB of older bytes, through a pipe.
records = b''.join(cell.to_bytes(2, 'big') + (9000 + cell).to_bytes(4, 'big') for cell in range(4096))
trailer = bytes([64, 64, 15, 255, 16, 1, 16, 0]) + (16 + len(records)).to_bytes(4, 'big') + b'PDLT'
_, r = compared([renew], [second, 'renew'], bytes(range(256)) * 390625 + records + trailer)
print(f'renew, 100 MB: proved {r[0] * 1000:.0f} ms, plain {r[1] * 1000:.0f} ms, ratio {r[1] / r[0]:.2f}')

# Lines of two to seven numbers, 100 MB of them, through a pipe.
lines = b''.join(b' '.join(b'%d' % (7919 * (i + k) % 4096) for k in range((2, 2, 3, 5, 6, 7)[i % 6])) + b'\n' for i in range(6000))
_, r = compared([keep_depth], [second, 'keep_depth'], lines * (100000000 // len(lines)))
print(f'keep_depth, 100 MB: proved {r[0] * 1000:.0f} ms, plain {r[1] * 1000:.0f} ms, ratio {r[1] / r[0]:.2f}')
