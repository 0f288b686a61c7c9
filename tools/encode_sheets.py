#!/usr/bin/env python3
"""An encoder of sheets of its own, written from docs/RULES.md and not from the code it is used to test.

    tools/encode_sheets.py          prints the table of crates/sheet_tests/src/reading.rt, unformatted,
                                    and the weighted sum of the full sheet of writing.rt
    tools/encode_sheets.py DIR      also writes the sheets of examples/ into DIR
"""
import sys


def bits(number, width):
    """The lowest bits of a number, most significant first; below zero, two's complement."""
    return format(number & ((1 << width) - 1), '0%db' % width)


def sheet(places, home, port, routes, count=None, cut=None, extra=b'', lastor=0):
    """The sheet of a board; then damaged: another count of routes, cut short, bytes added, bits of the last byte set."""
    s = bits(places, 8) + bits(home, 7) + bits(port, 7) + bits(len(routes) if count is None else count, 10)
    for start, end, floor, ceiling in routes:
        s += bits(start, 7) + bits(end, 7) + bits(floor, 13) + bits(ceiling, 12)
    while len(s) % 8:
        s += '0'
    data = bytes(int(s[i:i + 8], 2) for i in range(0, len(s), 8))
    if cut is not None:
        data = data[:cut]
    data += extra
    if lastor:
        data = data[:-1] + bytes([data[-1] | lastor])
    return data


B = sheet(2, 0, 1, [(0, 1, -3, 7)])
assert B == bytes.fromhex('020004010007FFA00E')
assert sheet(4, 0, 3, []) == bytes.fromhex('04000C00')
two = [(0, 1, -3, 7), (1, 0, 0, 4095)]

# a name, the bytes, and what is printed of them by the rules
cases = [
 ('the two-place sheet',B,'places 2\nhome 0\nport 1\nroute 0 start 0 end 1 floor -3 ceiling 7\n'),
 ('four places, no routes',sheet(4,0,3,[]),'places 4\nhome 0\nport 3\n'),
 ('the least floor',sheet(2,0,1,[(1,0,-4095,0)]),'places 2\nhome 0\nport 1\nroute 0 start 1 end 0 floor -4095 ceiling 0\n'),
 ('128 places and the greatest marks',sheet(128,127,0,[(0,127,4095,4095),(126,1,-1,0)]),'places 128\nhome 127\nport 0\nroute 0 start 0 end 127 floor 4095 ceiling 4095\nroute 1 start 126 end 1 floor -1 ceiling 0\n'),
 ('empty',b'','refused 51 bits 0 0\n'),
 ('ends inside home',sheet(2,0,1,[],cut=1),'refused 51 bits 0 8\n'),
 ('ends inside port',sheet(2,0,1,[],cut=2),'refused 51 bits 0 15\n'),
 ('ends inside routes',bytes.fromhex('04000C'),'refused 51 bits 0 22\n'),
 ('one place',sheet(1,0,0,[]),'refused 1 frame 0 0\n'),
 ('129 places',sheet(129,0,1,[]),'refused 1 frame 0 0\n'),
 ('no place, and home and port bad too',sheet(0,5,5,[]),'refused 1 frame 0 0\n'),
 ('home is no place, and port is none',sheet(2,2,2,[]),'refused 2 frame 0 8\n'),
 ('port is no place',sheet(2,0,2,[]),'refused 3 frame 0 15\n'),
 ('port is home',sheet(3,2,2,[],count=600),'refused 3 frame 0 15\n'),
 ('513 routes',sheet(2,0,1,[],count=513),'refused 52 sheet 0 22\n'),
 ('512 routes and no record',sheet(2,0,1,[],count=512),'refused 51 bits 1 32\n'),
 ('ends inside the end',sheet(2,0,1,[(0,1,-3,7)],cut=5),'refused 51 bits 1 39\n'),
 ('ends inside the floor',sheet(2,0,1,[(0,1,-3,7)],cut=6),'refused 51 bits 1 46\n'),
 ('ends inside the ceiling, and the start is bad',sheet(2,0,1,[(9,1,-3,7)],cut=8),'refused 51 bits 1 59\n'),
 ('ends inside the second record',sheet(2,0,1,two,cut=12),'refused 51 bits 2 85\n'),
 ('start is no place, nor is the end',sheet(2,0,1,[(2,2,5,1)]),'refused 11 order 1 32\n'),
 ('end is no place',sheet(2,0,1,[(1,2,5,1)]),'refused 11 order 1 39\n'),
 ('the ends are one place',sheet(2,0,1,[(1,1,5,1)]),'refused 12 order 1 39\n'),
 ('floor -4,096',sheet(2,0,1,[(0,1,-4096,7)]),'refused 14 order 1 46\n'),
 ('floor above the ceiling',sheet(2,0,1,[(0,1,8,7)]),'refused 14 order 1 46\n'),
 ('the second record, start',sheet(2,0,1,[two[0],(7,1,0,1)]),'refused 11 order 2 71\n'),
 ('the second record, floor',sheet(2,0,1,[two[0],(0,1,2,1)]),'refused 14 order 2 85\n'),
 ('a whole byte too many',bytes.fromhex('04000C0000'),'refused 54 sheet 1 32\n'),
 ('a whole byte too many, and it is not 0',sheet(2,0,1,[(0,1,-3,7)],extra=b'\x01',lastor=1),'refused 54 sheet 2 71\n'),
 ('the last bit is 1',bytes.fromhex('020004010007FFA00F'),'refused 55 sheet 2 71\n'),
 ('the first of two padding bits',sheet(2,0,1,two,lastor=2),'refused 55 sheet 3 110\n'),
 ('the second of two padding bits',sheet(2,0,1,two,lastor=1),'refused 55 sheet 3 111\n'),
]

full = sheet(128, 5, 7, [(n % 128, 127 - n % 128, -(n % 512) * 8, (n % 512) * 8) for n in range(512)])
four_places = sheet(4, 0, 3, [(0, 1, 0, 5), (0, 2, 1, 2), (1, 3, 0, 3), (2, 3, 0, 9), (2, 1, -1, 1)])
examples = {
    'two-places': B,
    'damaged': bytes.fromhex('020004010007FFA00F'),
    'no-routes': bytes.fromhex('04000C00'),
    'four-places': four_places,
    'overpromised': sheet(3, 0, 1, [(0, 2, 4, 6), (2, 1, 0, 3)]),
    'full': full,
}

for name, data, text in cases:
    print('    // %s\n    (&[%s], "%s"),' % (name, ', '.join('0x%02x' % b for b in data), text.replace('\n', '\\n')))
print('the full sheet: %d bytes, weighted sum %d' % (len(full), sum(b * (i + 1) for i, b in enumerate(full))))
for name, data in examples.items() if len(sys.argv) > 1 else ():
    with open('%s/%s.sheet' % (sys.argv[1], name), 'wb') as f:
        f.write(data)
