"""What standard error of ./planner says of the refused files of the pages, in the order of their tables (refused_files.py), and of
others.

A sentence begins with the file, which is called `net` or `plan` here.
"""

NETWORKS = [
    'net:1: column 12: no TOML: expected newline or end of document after a statement',
    'net:2: column 11: no TOML: cannot overwrite a value',
    'net:1: column 14: the byte 0xff is no UTF-8, as the text of a network has to be',
    'net: the file is empty: it has to begin with `format = 1`',
    'net:1: `format` is 2, and has to be 1',
    'net:1: `format` is true, and has to be 1',
    'net: `steps` is missing above all headers',
    'net:7: link `a` has no key `lanes`; a file of streets has it, of which tools/network-from-streets makes a network',
    'net:7: `cells` of link `a` is "2"; wanted is a whole number',
    'net:7: link `a` lacks `signal`, and has `greens`: these two stand together',
    'net:7: branch 1 of link `a` lacks `link`',
    'net:7: piece 0 of the demand of link `a` lacks `rate`',
    'net:27: signal 0 lacks `name`',
    'net:38: phase `wait` of signal `j` lacks `max`',
    'net:3: `link` has 0 items; wanted is an array of tables with 1 to 64 items',
    'net:2: `steps` is 241; wanted is a whole number from 1 to 240',
    'net:4: `name` of link `A` is "A"; wanted is a text that is a name: a letter from a to z, and at most 23 such letters, '
    'digits and underscores behind it',
    'net:7: `wave` of link `a` is [2, 1]; wanted is an array of whole numbers of two numbers p and q, 1 <= p <= q <= 100',
    'net:7: `parcel` of the branch to `c` of link `a` is 0; wanted is a whole number from 1 to 100',
    'net:7: `from` of piece 0 of the demand of link `a` is 241; wanted is a whole number from 0 to 240',
    'net:28: `name` of signal `J` is "J"; wanted is a text that is a name: a letter from a to z, and at most 23 such letters, '
    'digits and underscores behind it',
    'net:35: `clear` of phase `go` of signal `j` is 21; wanted is a whole number from 0 to 20',
    'net:23: there is a link `east` already, on line 18',
    'net:45: there is a signal `j` already, on line 28',
    'net:39: there is a phase `go` of signal `j` already, on line 32',
    'net:7: link `a` leads to `b`, and no link has this name',
    'net:10: link `north` leads to `south`, and no link has this name',
    'net:11: link `north` is gated by `k`, and no signal has this name',
    'net:12: link `north` is open in the green of `stop`, and signal `j` has no such phase; its phases are `go` and `wait`',
    'net:29: signal `j` starts with `stop`, and it has no such phase; its phases are `go` and `wait`',
    'net:42: phase `wait` of signal `j` may be followed by `stop`, and the signal has no such phase; its phases are `go` and `wait`',
    'net:10: link `north` has `turns`, and `to` on line 17: a link has one of them at most',
    'net:7: link `a` leads to itself',
    'net:10: link `north` leads to itself',
    'net:10: link `north` has a branch to `east` already, on line 10',
    'net:22: link `east` has demand, and `north` (line 10) leads into it: give the demand to a link of its own that leads in, '
    'or to one of these',
    'net:23: `north` (line 10) and `east` (line 22) lead into `west`, and `east` has no signal; where links merge, one signal '
    'has to open them in different phases',
    'net:25: `north` (line 10) and `east` (line 22) lead into `west`, and `north` and `east` are both open in the green of '
    '`go`; where links merge, one signal has to open them in different phases',
    'net:13: `initial` of link `north` has 2 numbers, and the link has 3 cells',
    'net:13: link `north` begins with 41 units in cell 2, and `store` is 40',
    'net: the network has 257 cells, of which 1 is a queue; the most is 256. The longest link is `a` with 256 cells',
    'net:14: piece 0 of the demand of link `north` is from 2 until 10, and ends past the horizon of 9 steps',
    'net:14: piece 0 of the demand of link `north` is from 2 until 2, and holds no step',
    'net:7: `rates` of link `a` has an entry for step 5, and the last step is 4',
    'net:15: at link `north` 1001 units arrive in step 2, and the most is 1000',
    'net:33: phase `go` of signal `j` has a `min` of 7, which is above its `max` of 6',
    'net:42: phase `wait` of signal `j` may be followed by no phase: `next` is empty',
    'net:36: phase `go` of signal `j` may be followed by itself; a green that goes on is one run',
]

PLANS = [
    'plan:2: a block for `t` begins, and the network has no such signal; wanted is the block of `s`',
    'plan:2: the plan ends without a block for signal `s`',
    'plan:3: the first run of signal `s` has to be of `a`, with which it starts, and is of `b`',
    'plan:3: `a` of signal `s` is green for 3 steps, and the greatest is 2',
    'plan:4: `a` may not follow `a` of line 3 at signal `s`; `b` may',
    'plan:4: `c` may not follow `a` of line 3 at signal `s`, which has no phase of this name; `b` may',
    'plan:5: `a` of signal `s` is green for 2 steps, and 1 step is left of the horizon',
    'plan:5: the block of signal `s` from line 2 ends here, and its runs with their clearances have 2 steps: 1 is missing of the 3',
    'plan:6: signal `s` has its 3 steps before this run: that of `a` on line 5, with its clearance, comes to the end of the horizon',
    'plan:3: "01" has a zero in front; the number is written without it',
    'plan:3: the line has a space at its beginning or end, or two spaces in a row; one stands between two words',
    'plan:2: a run stands before the first line `signal NAME`',
    'plan:7: something stands behind `end`, which has to be the last line',
    'plan:6: the line has no line feed at its end',
    'plan:6: the file ends here, before a line `end`',
    'plan:6: the line is empty; a plan has no empty lines',
    'plan: the file is empty: it has to begin with `ctm-plan 1`',
]

# Others: what is said, the status, the words, and the files that these name beside those of the examples. `three-steps.toml` is the
# network of the plans.

TURNS = b'ctm-plan 1\nsignal s\na 1\nb 1\na 1\nend\n'
RETURN = ('the line ends with a carriage return before its line feed, as editors of Windows write lines; those of a plan end with a line '
          'feed alone')
REPLAY = ['replay', 'three-steps.toml', 'plan']

OTHERS = [
    ('net:4: `format` stands behind a header, and so in link `a`; it has to stand above all headers', 3, ['replay', 'net'],
     {'net': b'steps = 3\n[[link]]\nname = "a"\nformat = 1\ncap = 1\nstore = 1\n'}),
    ('net:5: link `a` has no key `stroe`; is `store` meant?', 3, ['replay', 'net'],
     {'net': b'format = 1\r\nsteps = 3\r\n[[link]]\r\nname = "a"\r\nstroe = 3\r\ncap = 1\r\nstore = 1\r\n'}),
    ('net:3: no TOML: `[link]` stands in single brackets, and each link begins with double ones, `[[link]]`', 3, ['replay', 'net'],
     {'net': b'format = 1\nsteps = 3\n[link]\nname = "a"\ncap = 1\nstore = 1\n[link]\nname = "b"\ncap = 1\nstore = 1\n'}),
    ('net:3: `link` is a table; wanted is an array of tables; each has a header in double brackets', 3, ['replay', 'net'],
     {'net': b'format = 1\nsteps = 3\n[link]\nname = "a"\ncap = 1\nstore = 1\n'}),
    ('net:4: column 8: no TOML: invalid value; a text stands between quotes', 3, ['replay', 'net'],
     {'net': b'format = 1\nsteps = 3\n[[link]]\nname = a\ncap = 1\nstore = 1\n'}),
    ('net: this is a file of streets, and a network is wanted here; tools/network-from-streets makes a network of it', 3,
     ['replay', 'net'], {'net': b'step = 2\n[street.a]\nlength = 60\n'}),
    ('plan:1: this is a file of cycles, and a plan is wanted here', 4, REPLAY, {'plan': b'[signal.s]\nsplits = { a = 50, b = 50 }\n'}),
    ('plan:2: a block for `lower` begins, and the next signal of the network is `upper`; blocks stand in the order of the network file', 4,
     ['replay', 'arterial.toml', 'plan'], {'plan': b'ctm-plan 1\nsignal lower\n'}),
    ('net:1: this is a plan, and a network is wanted here', 3, ['replay', 'net', 'plan'], {'net': TURNS, 'plan': TURNS}),
    ('/dev/zero: the file has more than 1,048,576 bytes, which is the most that a network file may have', 3, ['replay', '/dev/zero'], {}),
    ('plan:1: ' + RETURN, 4, REPLAY, {'plan': TURNS.replace(b'\n', b'\r\n')}),
    ('plan:3: ' + RETURN, 4, REPLAY, {'plan': TURNS.replace(b'a 1\nb', b'a 1\r\nb')}),
    ('plan:1: the line begins with a byte order mark, three bytes that an editor put there; save the file without it', 4, REPLAY,
     {'plan': b'\xef\xbb\xbf' + TURNS}),
    ('plan:3: the line has a tab; one space stands between two words', 4, REPLAY, {'plan': TURNS.replace(b'a 1', b'a\t1')}),
    ('plan:3: the line has a `#`; a plan has no comments', 4, REPLAY, {'plan': TURNS.replace(b'a 1', b'a 1 # one')}),
    ('plan:2: "S" is no name of a signal: names have small letters, digits and underscores', 4, REPLAY,
     {'plan': TURNS.replace(b'signal s', b'signal S')}),
    ('plan:4: "-1" is no number of steps: a green has 1 to 4 digits and no sign', 4, REPLAY, {'plan': TURNS.replace(b'b 1', b'b -1')}),
    ('plan:1: this is a network, and a plan is wanted here', 4, REPLAY, {'plan': b'format = 1\n'}),
    ('plan:3: the block of signal `s` from line 2 ends here, and it has no runs: 3 are missing of the 3', 4, REPLAY,
     {'plan': b'ctm-plan 1\nsignal s\nend\n'}),
    ('plan:2: a block for `s` begins, and the network has no signals', 4, ['replay', 'one-link.toml', 'plan'], {'plan': TURNS}),
    ('arterial.toml: the network has 2 signals, `upper` and `lower`, so a plan has to be named behind it', 4,
     ['replay', 'arterial.toml'], {}),
    ('arterial.toml: its program has 52207 rows, so the greatest budget is 153: budget times rows is at most 8000000', 5,
     ['solve', 'arterial.toml', '154', 'out.plan', 'out.cert'], {}),
    ('arterail.toml: there is no such file; is `arterial.toml` meant?', 6, ['replay', 'arterail.toml'], {'arterial.toml': b''}),
    ('missing/net: there is no such file: there is no folder `missing`', 6, ['replay', 'missing/net'], {}),
    ('folder: this is a folder, and a file is wanted', 6, ['replay', 'one-link.toml', 'folder'], {'folder': None}),
    ('missing.cert: there is no such file', 6, ['check', 'one-link.toml', 'missing.cert'], {}),
    ('folder: this is a folder, and a file is to be written', 7, ['program', 'one-link.toml', 'folder'], {'folder': None}),
    ('missing/out: it cannot be written: there is no folder `missing`', 7, ['program', 'one-link.toml', 'missing/out'], {}),
    ('/dev/full: it cannot be written to its end: the device is full', 7, ['program', 'one-link.toml', '/dev/full'], {}),
    ('three-steps-above.cert:9: the leaf gives 1, which is below the bound that line 2 names', 1,
     ['check', 'three-steps.toml', 'three-steps-above.cert'], {}),
    ('three-steps-missing.cert:18: the leaf is called empty, and its rows come to 0 in its box, in 1024ths, where they have to come to 1 '
     'at least', 1, ['gap', 'three-steps.toml', 'three-steps-wait.plan', 'three-steps-missing.cert'], {}),
    ('cert:1: the line is "ctm-plan 1"; it has to be `ctm-cert 1`', 1, ['check', 'three-steps.toml', 'cert'], {'cert': TURNS}),
    ('cert:3: "split 400 0": the network\'s program has no such column; is this the certificate of another network?', 1,
     ['check', 'three-steps.toml', 'cert'], {'cert': b'ctm-cert 1\nbound 0\nsplit 400 0\nfixed\nfixed\nend\n'}),
    ('point:1: the line is "ctm-plan 1"; it has to be `ctm-point 1`', 1, ['point', 'three-steps.toml', 'point'], {'point': TURNS}),
    ('point:2: the line is "+3"; it has to be a whole number of at most 15 digits, or `end` as the last line', 1,
     ['point', 'three-steps.toml', 'point'], {'point': b'ctm-point 1\n+3\nend\n'}),
    ('point: it has 1 values, and the network\'s program has 48 columns; is this the point of another network?', 1,
     ['point', 'three-steps.toml', 'point'], {'point': b'ctm-point 1\n1\nend\n'}),
    ('point:4: the value of column 2, `green_t1_s_a`, is 2, and it may be 0 to 1', 1,
     ['point', 'three-steps.toml', 'point'], {'point': b'ctm-point 1\n1\n0\n2\n' + b'0\n' * 45 + b'end\n'}),
    ('point: row 1, `after_green_t0_s_a`, is not met: it comes to -1, and has to be at least 0', 1,
     ['point', 'three-steps.toml', 'point'], {'point': b'ctm-point 1\n1\n0\n0\n0\n0\n0\n' + b'1\n0\n0\n0\n0\n' * 2 + b'0\n' * 32 + b'end\n'}),
    ('missing.txt: there is no such file', 6, ['point', 'one-link.toml', 'missing.txt'], {}),
    ('two-links.toml:16: warning: a cell of link `b` that holds its `cap` of 1 takes 0 in a step, so the link never carries its '
     'capacity', 0, ['replay', 'two-links.toml'], {}),
]

# Words of no form, and what is said before the forms.

WORDS = [
    ('no command is named.', []),
    ('there is no command `Solve`; is `solve` meant?', ['Solve', 'net']),
    ('`replay` takes 1 or 2 words behind it, and here are 0.', ['replay']),
    ('the word for NET is empty.', ['replay', '']),
    ('`01` is no BUDGET: that is a number from 1 to 4294967295, of digits alone and without a zero in front.',
     ['solve', 'net', '01', 'plan', 'cert']),
    ('NET and OUT are the same file, `net`.', ['program', 'net', 'net']),
]

# Warnings of one network, which has each of those that there are.

ODD = b"""format = 1
steps = 9
[[link]]
name = "heavy"
cap = 100
store = 400
turns = [{ link = "left", parcel = 60 }, { link = "right", parcel = 50 }]
[[link]]
name = "wide"
cap = 200
store = 800
turns = [{ link = "one", parcel = 60 }, { link = "two", parcel = 40 }, { link = "three", parcel = 20 }]
signal = "j"
greens = ["never"]
[[link]]
name = "blocked"
cap = 100
store = 400
turns = [{ link = "narrow", parcel = 60 }, { link = "four", parcel = 40 }]
[[link]]
name = "narrow"
cap = 50
store = 200
[[link]]
name = "held"
cap = 10
store = 40
turns = [{ link = "five", parcel = 5 }, { link = "slow", parcel = 5 }]
[[link]]
name = "slow"
cap = 5
store = 11
wave = [1, 3]
[[link]]
name = "stub"
cap = 1
store = 4
signal = "j"
greens = ["go"]
[[link]]
name = "alone"
cap = 1
store = 4
[[signal]]
name = "j"
phase = [
    { name = "go", min = 1, max = 9, next = ["idle"] },
    { name = "idle", min = 1, max = 9, next = ["go"] },
    { name = "never", min = 1, max = 9, next = ["go"] },
]
""" + b''.join(b'[[link]]\nname = "%s"\ncap = 100\nstore = 400\n' % name for name in
               [b'left', b'right', b'one', b'two', b'three', b'four', b'five'])

ODD_WARNINGS = [
    'net:7: warning: a parcel of link `heavy` has 110 units, and `cap` is 100: nothing ever leaves it',
    'net:12: warning: parcels of 120 units use 120 of the `cap` of 200 of link `wide`; in lowest terms its shares are 3, 2 and 1',
    'net:14: warning: no phase opens link `wide`: signal `j` does not come to `never` within the horizon',
    'net:19: warning: the branch to `narrow` gets 60 units of a parcel, and its `cap` is 50: nothing ever leaves link `blocked`',
    'net:33: warning: a cell of link `slow` that holds its `cap` of 5 takes 2 in a step, so the link never carries its capacity',
    'net:34: warning: link `stub` leads out of the network at signal `j`, where `wide` leads on: it has neither `to` nor `turns`',
    'net:40: warning: link `alone` stands alone: it has neither `to` nor `turns`, and nothing leads into it',
    'net:48: warning: no link is open in the green of phase `idle` of signal `j`',
]
