# SPDX-License-Identifier: MIT OR Apache-2.0
"""Slices whose inner edges are no multiples of the chroma factors, so that two of them may code one
sample: where their parts begin, which records are accepted, and what their payloads decode to. FFmpeg
5.1.9 decodes each payload that is good to the same picture; the places of faults, and what was handed
over before, were worked out apart from the model."""
import ffv1
import stream_lines
from known_answers.case import fault_of

# samples of luma, parts, factor: where each coded part begins in a plane of chroma and how long it is;
# how many of its samples the part before has; whether a record is accepted at either profile
SIDES = [
    (10, 2, 2, [(0, 3), (2, 3)], [0, 1], 'shared'),
    (640, 6, 2, [(0, 53), (53, 54), (106, 54), (160, 53), (213, 54), (266, 54)],
     [0, 0, 1, 0, 0, 1], 'shared'),
    (1280, 6, 2, [(0, 107), (106, 107), (213, 107), (320, 107), (426, 107), (533, 107)],
     [0, 1, 0, 0, 1, 0], 'shared'),
    (486, 4, 2, [(0, 61), (60, 61), (121, 61), (182, 61)], [0, 1, 0, 0], 'shared'),
    (288, 5, 2, [(0, 29), (28, 29), (57, 29), (86, 29), (115, 29)], [0, 1, 0, 0, 0], 'shared'),
    (2048, 6, 4, [(0, 86), (85, 86), (170, 86), (256, 86), (341, 86), (426, 86)],
     [0, 1, 1, 0, 1, 1], 'shared'),
    (4, 4, 4, [(0, 1), (0, 1), (0, 1), (0, 1)], [0, 1, 1, 1], 'shared'),
    (10, 4, 2, [(0, 1), (1, 2), (2, 1), (3, 2)], [0, 0, 1, 0], 'shared'),
    (5, 3, 2, [(0, 1), (0, 1), (1, 1)], [0, 1, 0], 'gap'),
    (7, 2, 2, [(0, 2), (1, 2)], [0, 1], 'gap'),
    (9, 3, 4, [(0, 1), (0, 1), (1, 1)], [0, 1, 0], 'gap'),
    (53, 4, 4, [(0, 4), (3, 4), (6, 4), (9, 4)], [0, 1, 1, 1], 'gap'),
    (720, 6, 2, [(0, 60), (60, 60), (120, 60), (180, 60), (240, 60), (300, 60)],
     [0, 0, 0, 0, 0, 0], 'clean'),
]

# name, width, height, log2 of the factors, columns and rows, record, the fault at the strict and at
# the wide profile, and what a decoder holds
RECORDS = [
    ('640x480 4:2:2 in 24', 640, 480, (1, 0), (6, 4),
     "5600312734026A717B6A910F748BCF5994FD19F9F1D800DDA1DA58",
     12, 0, (255744, 1920, 640, 6, 1025)),
    ('1280x720 4:2:0 in 24', 1280, 720, (1, 1), (6, 4),
     "560030AB2A7FC6EA6DA47901AA18BBE240FDCB9324A00028AC36CF",
     12, 0, (255744, 3840, 1280, 6, 1025)),
    ('720x486 4:2:0 in 4: lines are kept', 720, 486, (1, 1), (2, 2),
     "5600309C03B9221633710E972A00964D380F9B35DC00A4ED091D",
     12, 0, (85248, 2880, 720, 2, 1025)),
    ('720x486 4:2:0 in 9: clean', 720, 486, (1, 1), (3, 3),
     "560030A63F7C4128F6394BAE2283DA432A1A870E149005B0B823",
     0, 0, (127872, 2160, 720, 3, 1025)),
    ('7x1 4:2:0 in 2 columns: the last column is in no slice', 7, 1, (1, 1), (2, 1),
     "560030A287828375B61093475296CAB54CECFBF7D160E142B678",
     12, 12, None),
    ('9x1 4:1:1 in 3 columns: the last column is in no slice', 9, 1, (2, 0), (3, 1),
     "560031956DDDBB6D3B1FFF3103FA82EA57243060BD30DF555888",
     12, 12, None),
]

# name, width, height, depth, log2 of the factors, transparency, columns and rows, ec, coder, payload,
# fault and place, lines, decisions, how many lines the sink takes
FRAMES = [
    ('4:2:2 2x1 in 2 columns: both code the one Cb and Cr',
     2, 1, 8, (1, 0), 0, (2, 1), 0, 1,
     "FE0318E30000043F515DB1000004",
     (0, 0, 0, 0, 0),
     "0:0 0102 1:0 05 2:0 06", 56, None),
    ('the second says Cb 7',
     2, 1, 8, (1, 0), 0, (2, 1), 0, 1,
     "FE0318E30000043F518328000004",
     (39, 1, 1, 0, 0),
     "0:0 0102", 42, None),
    ('the second says Cr 7',
     2, 1, 8, (1, 0), 0, (2, 1), 0, 1,
     "FE0318E30000043F515DDA000004",
     (39, 1, 2, 0, 0),
     "0:0 0102 1:0 05", 56, None),
    ('with parity, coder 2',
     2, 1, 8, (1, 0), 0, (2, 1), 1, 2,
     "FE0318E30000040014319A193F515DB100000400D42B80C7",
     (0, 0, 0, 0, 0),
     "0:0 0102 1:0 05 2:0 06", 56, None),
    ('4:2:0 1x2 in 2 rows: both code the one Cb and Cr; each is handed over once, with the upper row',
     1, 2, 8, (1, 1), 0, (1, 2), 0, 1,
     "FE0318E30000049D7B7907000004",
     (0, 0, 0, 0, 0),
     "0:0 01 1:0 05 2:0 06 0:1 02", 56, None),
    ('the lower says Cb 7',
     1, 2, 8, (1, 1), 0, (1, 2), 0, 1,
     "FE0318E30000049D7B9BBF000004",
     (39, 1, 1, 0, 0),
     "0:0 01 1:0 05 2:0 06 0:1 02", 49, None),
    ('the lower says Cr 7: its Cb agrees, and is not handed over again',
     1, 2, 8, (1, 1), 0, (1, 2), 0, 1,
     "FE0318E30000049D7B792D000004",
     (39, 1, 2, 0, 0),
     "0:0 01 1:0 05 2:0 06 0:1 02", 56, None),
    ('4:2:0 2x2 in 4: all four code the one Cb and Cr',
     2, 2, 8, (1, 1), 0, (2, 2), 0, 1,
     "FE0318E30000043F515DB10000049D8429070000041158D8964A000005",
     (0, 0, 0, 0, 0),
     "0:0 0102 1:0 05 2:0 06 0:1 0304", 117, None),
    ('the last says Cb 9',
     2, 2, 8, (1, 1), 0, (2, 2), 0, 1,
     "FE0318E30000043F515DB10000049D8429070000041158DD7167000005",
     (39, 3, 1, 0, 0),
     "0:0 0102 1:0 05 2:0 06 0:1 0304", 105, None),
    ('4:2:2 10x1 in 2 columns: both code column 2',
     10, 1, 8, (1, 0), 0, (2, 1), 0, 1,
     "FE6C74055DB50B1E02C12900000B3F6FBE052B23D08D28AE319700000C",
     (0, 0, 0, 0, 0),
     "0:0 0A0B0C0D0E0F10111213 1:0 323C46505A 2:0 37414B555F", 190, None),
    ('the second says another Cb there',
     10, 1, 8, (1, 0), 0, (2, 1), 0, 1,
     "FE6C74055DB50B1E02C12900000B3F6FBE052B4D7BAF09E1135000000C",
     (39, 1, 1, 0, 2),
     "0:0 0A0B0C0D0E0F10111213", 126, None),
    ('the second differs at column 3, which it codes alone: another picture',
     10, 1, 8, (1, 0), 0, (2, 1), 0, 1,
     "FE6C74055DB50B1E02C12900000B3F6FBE052B23E55F205A36C600000C",
     (0, 0, 0, 0, 0),
     "0:0 0A0B0C0D0E0F10111213 1:0 323C46515A 2:0 37414B555F", 190, None),
    ('10x1 in 4 columns: the third codes column 2 alone, and the second does too',
     10, 1, 8, (1, 0), 0, (4, 1), 0, 1,
     "FE6C7C2077EB0000063F6DFCA9FA5367981A0000094F9BE8A78AA9620000075F8C166A9C733110D1250000"
     "0A",
     (0, 0, 0, 0, 0),
     "0:0 0A0B0C0D0E0F10111213 1:0 323C46505A 2:0 37414B555F", 250, None),
    ('the third says another Cr there',
     10, 1, 8, (1, 0), 0, (4, 1), 0, 1,
     "FE6C7C2077EB0000063F6DFCA9FA5367981A0000094F9BE8A78AA97D0000075F8C166A9C733110D1250000"
     "0A",
     (39, 2, 2, 0, 2),
     "0:0 0A0B0C0D0E0F10111213 1:0 323C46505A", 226, None),
    ('4:1:1 4x1 in 4 columns: all four code the one Cb',
     4, 1, 8, (2, 0), 0, (4, 1), 0, 1,
     "FE0318E30000043F515DB10000044F96A5F70000045F88A5BD53000005",
     (0, 0, 0, 0, 0),
     "0:0 01020304 1:0 05 2:0 06", 120, None),
    ('the third says Cb 9',
     4, 1, 8, (2, 0), 0, (4, 1), 0, 1,
     "FE0318E30000043F515DB10000044F96B48CCA0000055F88A5BD53000005",
     (39, 2, 1, 0, 0),
     "0:0 01020304", 87, None),
    ('4:2:0 6x6 in 4: column 1 and line 1 of chroma are shared',
     6, 6, 8, (1, 1), 0, (2, 2), 0, 1,
     "FEB0E71F6440036C90526058CFCDC7E84B12540000133F711778F6863BD830C8B19697AF26AD2FBFD98A36"
     "0000159D9BF41E434CE456BA26CF15D349F7F8F28DCC9F899C000016115EB3B751EBD1B8749A4013438203"
     "674462453265DA000016",
     (0, 0, 0, 0, 0),
     "0:0 00070E151C23 0:1 2A31383F464D 0:2 545B62697077 1:0 0A141E 1:1 28323C 2:0 0B151F "
     "2:1 29333D 0:3 7E858C939AA1 0:4 A8AFB6BDC4CB 0:5 D2D9E0E7EEF5 1:2 46505A 2:2 47515B", 679, None),
    ('the last says another Cb at column 2 of line 1, which the one above it codes',
     6, 6, 8, (1, 1), 0, (2, 2), 0, 1,
     "FEB0E71F6440036C90526058CFCDC7E84B12540000133F711778F6863BD830C8B19697AF26AD2FBFD98A36"
     "0000159D9BF41E434CE456BA26CF15D349F7F8F28DCC9F899C000016115EB3B751EBD1B8749A4013438285"
     "6744624530928D000016",
     (39, 3, 1, 1, 2),
     "0:0 00070E151C23 0:1 2A31383F464D 0:2 545B62697077 1:0 0A141E 1:1 28323C 2:0 0B151F "
     "2:1 29333D 0:3 7E858C939AA1 0:4 A8AFB6BDC4CB 0:5 D2D9E0E7EEF5", 555, None),
    ('the third says another Cb at column 0 of line 1',
     6, 6, 8, (1, 1), 0, (2, 2), 0, 1,
     "FEB0E71F6440036C90526058CFCDC7E84B12540000133F711778F6863BD830C8B19697AF26AD2FBFD98A36"
     "0000159D9BF41E434CE456BA26CF15D7EFA3AE728DAB048181000016115EB3B751EBD1B8749A4013438203"
     "674462453265DA000016",
     (39, 2, 1, 1, 0),
     "0:0 00070E151C23 0:1 2A31383F464D 0:2 545B62697077 1:0 0A141E 1:1 28323C 2:0 0B151F "
     "2:1 29333D 0:3 7E858C939AA1 0:4 A8AFB6BDC4CB 0:5 D2D9E0E7EEF5", 533, None),
    ('the last says another Cb at column 1 of line 1, which all code',
     6, 6, 8, (1, 1), 0, (2, 2), 0, 1,
     "FEB0E71F6440036C90526058CFCDC7E84B12540000133F711778F6863BD830C8B19697AF26AD2FBFD98A36"
     "0000159D9BF41E434CE456BA26CF15D349F7F8F28DCC9F899C000016115EB3B751EBD1B8749A4013448581"
     "5704623D969342000016",
     (39, 3, 1, 1, 1),
     "0:0 00070E151C23 0:1 2A31383F464D 0:2 545B62697077 1:0 0A141E 1:1 28323C 2:0 0B151F "
     "2:1 29333D 0:3 7E858C939AA1 0:4 A8AFB6BDC4CB 0:5 D2D9E0E7EEF5", 555, None),
    ('the last says another Cb at column 1 of line 2, which the third codes',
     6, 6, 8, (1, 1), 0, (2, 2), 0, 1,
     "FEB0E71F6440036C90526058CFCDC7E84B12540000133F711778F6863BD830C8B19697AF26AD2FBFD98A36"
     "0000159D9BF41E434CE456BA26CF15D349F7F8F28DCC9F899C000016115EB3B751EBD1B8749A4013438203"
     "777C42453264D2000016",
     (39, 3, 1, 2, 1),
     "0:0 00070E151C23 0:1 2A31383F464D 0:2 545B62697077 1:0 0A141E 1:1 28323C 2:0 0B151F "
     "2:1 29333D 0:3 7E858C939AA1 0:4 A8AFB6BDC4CB 0:5 D2D9E0E7EEF5", 595, None),
    ("the second says another Cb at column 1 of line 1, before the third another structure",
     6, 6, 8, (1, 1), 0, (2, 2), 0, 1,
     "FEB0E71F6440036C90526058CFCDC7E84B12540000133F711778F6863BD830C8B19697AF2F88BFBFD9882F"
     "0000159BE8BBCC956A6158B55C86BA12628EB07ED574E4CD28000016115EB3B751EBD1B8749A4013438203"
     "674462453265DA000016",
     (39, 1, 1, 1, 1),
     "0:0 00070E151C23 0:1 2A31383F464D 0:2 545B62697077 1:0 0A141E", 246, None),
    ('the third says another Cb in line 1, and another structure: that is looked at first',
     6, 6, 8, (1, 1), 0, (2, 2), 0, 1,
     "FEB0E71F6440036C90526058CFCDC7E84B12540000133F711778F6863BD830C8B19697AF26AD2FBFD98A36"
     "0000159BE8BBCC956A6158B55C86BA13D3D5995ED56A523A8B000016115EB3B751EBD1B8749A4013438203"
     "674462453265DA000016",
     (41, 2, 0, 0, 0),
     "0:0 00070E151C23 0:1 2A31383F464D 0:2 545B62697077 1:0 0A141E 1:1 28323C 2:0 0B151F "
     "2:1 29333D", 335, None),
    ('a sink that refuses line 1 of Cb: nothing of the lower row is read',
     6, 6, 8, (1, 1), 0, (2, 2), 0, 1,
     "FEB0E71F6440036C90526058CFCDC7E84B12540000133F711778F6863BD830C8B19697AF26AD2FBFD98A36"
     "0000159D9BF41E434CE456BA26CF15D7EFA3AE728DAB048181000016115EB3B751EBD1B8749A4013438203"
     "674462453265DA000016",
     (42, 0, 1, 1, 0),
     "0:0 00070E151C23 0:1 2A31383F464D 0:2 545B62697077 1:0 0A141E", 246, 4),
    ('the second says another Cb at column 2, and a symbol of the same line is too long: that comes first',
     10, 1, 8, (1, 0), 0, (2, 1), 0, 1,
     "FE6C74055DB50B1E02C12900000B3F6FBE052B4EAFFFAF000009",
     (4, 1, 1, 0, 3),
     "0:0 0A0B0C0D0E0F10111213", 140, None),
    ('a symbol of the next line is too long: the Cb that differs comes first',
     10, 1, 8, (1, 0), 0, (2, 1), 0, 1,
     "FE6C74055DB50B1E02C12900000B3F6FBE052B4D7BAF19FFDF00000B",
     (39, 1, 1, 0, 2),
     "0:0 0A0B0C0D0E0F10111213", 126, None),
    ('the second has no more bytes in a line in which it differs, too: read too far comes first',
     10, 4, 8, (1, 0), 0, (2, 1), 0, 1,
     "FE75DDA825CDB2B281E97620998A25A275A813EC520AE5D5C0FE1B26D98708B90B4DABA2B439BF58313766"
     "D878137AF601B3167C8EBB16079437733D9BBABED5948F4DB7CFFF920000473F742BC481593394F56C3452"
     "69DEF5768E600295C65644BD10CAC1FB5E327A53ACB0BCF961FCDBDC6BAF03EB69FF1E6257A8AD565FBCE3"
     "18616A5BC9D1601B3229994381000044",
     (8, 1, 2, 3, 0),
     "0:0 1C2E2BB8569D806C1251 0:1 DCC9BEE389120EBAEEA3 0:2 C2D8545A78760C5AA658 0:3 "
     "45B85DE4D4BAB5B9E452 1:0 CCEC7FFA8E 1:1 FFB5E8ECB3 1:2 E9F971A655 1:3 89F59E9BD0 2:0 "
     "9F6AFABB26 2:1 AE0461361E 2:2 198B743645", 1128, None),
    ('4:2:0 6x2 in 2 columns, with transparency: its plane shares nothing',
     6, 2, 8, (1, 1), 1, (2, 1), 0, 1,
     "FE4B2593CA5C63788ADEFAAD762400000E3F82DC4588531DE6F8A2682A267900000E",
     (0, 0, 0, 0, 0),
     "0:0 010203040506 0:1 0708090A0B0C 1:0 141E28 2:0 19232D 3:0 65666768696A 3:1 "
     "6B6C6D6E6F70", 220, None),
    ('4:2:2 6x1 in 2 columns, depth 10',
     6, 1, 10, (1, 0), 0, (2, 1), 0, 1,
     "FE91789811095E040C0000093F74D10DD54D37E3DE779B6865CF1C03000010",
     (0, 0, 0, 0, 0),
     "0:0 0000FF0305005802BC022003 1:0 00020102E803 2:0 030084030400", 194, None),
    ('the second says Cb 257 more, so another high byte and another low one',
     6, 1, 10, (1, 0), 0, (2, 1), 0, 1,
     "FE91789811095E040C0000093F74D10DD54D37E3BC5857C356651735000010",
     (39, 1, 1, 0, 1),
     "0:0 0000FF0305005802BC022003", 138, None),
    ('4:2:0 2x2 in 4, depth 16',
     2, 2, 16, (1, 1), 0, (2, 2), 0, 1,
     "FE069FAF866DAE1BB75900000A3F51DCF49D2B9DBB238400000A9D7112D5D339E2FFDA9000000A1158E33F"
     "0CBD4F22347700000A",
     (0, 0, 0, 0, 0),
     "0:0 01000200 1:0 409C 2:0 3075 0:1 FFFF0400", 307, None),
    ('4:4:0 3x6 in 2 rows: a line of chroma as wide as the picture is kept',
     3, 6, 8, (0, 1), 0, (1, 2), 0, 1,
     "FE7BB0F1A56DD0867B0F165F6000000D9D945E6F75F32747D4A90079C90600000E",
     (0, 0, 0, 0, 0),
     "0:0 000102 0:1 030405 0:2 060708 1:0 323334 1:1 353637 2:0 464748 2:1 494A4B 0:3 "
     "090A0B 0:4 0C0D0E 0:5 0F1011 1:2 38393A 2:2 4C4D4E", 210, None),
    ('two lines, ec 1',
     2, 2, 8, (1, 0), 0, (2, 1), 1, 1,
     "FDFFC284A4D200000600C5BDABA73F50E53C16360000060067DDB1B1",
     (0, 0, 0, 0, 0),
     "0:0 0102 0:1 0304 1:0 05 1:1 07 2:0 06 2:1 08", 86, None),
]


def kind_of(side):
    """Whether no part of a side has samples of another, some have, or a sample is in none."""
    if ffv1.are_multiples(*side):
        return "clean"
    return "shared" if ffv1.is_reached(*side) else "gap"


def read(record, width, height, wide):
    return fault_of(lambda: ffv1.read_record(bytes.fromhex(record), width, height, wide=wide)) or 0


def frame_of(width, height, depth, log2, extra, grid, ec, coder):
    """The configuration of a row of `FRAMES`."""
    config = ffv1.Config(width, height, chroma=True, log2_h=log2[0], log2_v=log2[1], extra=extra == 1,
                         columns=grid[0], rows=grid[1], ec=ec, coder=coder, wide=True)
    config.depth = depth
    return config


def decoded(config, payload, room):
    """The fault and its place, the lines that were handed over, and how many decisions were made."""
    out = ffv1.decode_frame(config, bytes.fromhex(payload), room)
    fault, size = out.fault, 1 if config.depth == 8 else 2
    place = (fault.number, fault.slice, fault.plane, fault.line, fault.x) if fault else (0,) * 5
    lines = " ".join(
        f"{plane}:{y} " + b"".join(sample.to_bytes(size, "little") for sample in line).hex().upper()
        for plane, y, line in out.lines)
    return place, lines, out.ones + out.zeros


def checks():
    """What the model answers, beside what is known."""
    for size, count, factor, coded, shared, kind in SIDES:
        side, parts = (size, count, factor), range(count)
        yield f"side {side}", [ffv1.coded_part(side, k) for k in parts], coded
        yield f"shared in {side}", [ffv1.shared_of(side, k) for k in parts], shared
        yield f"kind of {side}", kind_of(side), kind
    for name, width, height, log2, grid, record, strict, wide, held in RECORDS:
        for is_wide, wanted in [(False, strict), (True, wide)]:
            yield f"record of {name}, {is_wide}", read(record, width, height, is_wide), wanted
        if held is not None:
            config = ffv1.read_record(bytes.fromhex(record), width, height, wide=True)
            yield f"held of {name}", stream_lines.held(config) + (1025,), held
    for name, *shape, payload, place, lines, decisions, room in FRAMES:
        yield f"frame: {name}", decoded(frame_of(*shape), payload, room), (place, lines, decisions)
