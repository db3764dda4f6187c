## One scalar by its path, in place.
$ printf '7\n12\n4.5\n.25\n-1.5\n20\n7\n1\n' | lepugaso write limits.layout 4 -o block.bin
$ lepugaso get limits.layout 4 .2 block.bin
      28  .2          f32   -1.5          0xbfc00000
$ lepugaso set limits.layout 4 .2 -2.3 block.bin && od -A d -t x1 -j 16 -N 16 block.bin
0000016 00 00 40 41 00 00 90 40 00 00 80 3e 33 33 13 c0
0000032
$ lepugaso get limits.layout 4 .1 block.bin
      16  .1[0]       f32   12            0x41400000
      20  .1[1]       f32   4.5           0x40900000
      24  .1[2]       f32   0.25          0x3e800000
$ lepugaso get limits.layout 4 .1[2] <block.bin
      24  .1[2]       f32   0.25          0x3e800000
$ printf '1\n2\n3\n4\n5\n6\n7\n' | lepugaso write kinds.layout 18 -o open.bin && lepugaso set kinds.layout 18 .1[1][2] 0x10 open.bin && lepugaso get kinds.layout 18 .1[1] open.bin
      32  .1[1][0]    f32   5             0x40a00000
      36  .1[1][1]    f32   6             0x40c00000
      40  .1[1][2]    f32   16            0x41800000
$ lepugaso set limits.layout 4 .1[3] 5 block.bin
lepugaso: refused 12 at step 1: index 3, but a vec3<f32> has 3
[1]
$ lepugaso get limits.layout 4 .5 block.bin
lepugaso: refused 11 at step 0: member 5, but S4 has members 0 to 4
[1]
$ lepugaso get limits.layout 4 .1.0 block.bin
lepugaso: refused 11 at step 1: member 0, but vec3<f32> has no members
[1]
$ lepugaso get limits.layout 4 [0] block.bin
lepugaso: refused 13 at step 0: index 0, but S4 has members, and no elements
[1]
$ lepugaso get limits.layout 4 .2[0] block.bin
lepugaso: refused 13 at step 1: index 0, but f32 has no elements
[1]
$ lepugaso get kinds.layout 18 .1[2][0] open.bin
lepugaso: refused 12 at step 1: index 2, but an array<vec3<f32>> has 2 in this buffer
[1]
$ lepugaso get kinds.layout 8 [1][3] block.bin
lepugaso: refused 12 at step 1: index 3, but a vec3<f16> has 3
[1]
$ lepugaso get kinds.layout 8 [2] block.bin
lepugaso: refused 12 at step 0: index 2, but a mat2x3<f16> has 2
[1]
$ lepugaso set limits.layout 4 .1 5 block.bin
lepugaso: refused 14: the path leads to vec3<f32>, which is no single scalar
[1]
$ lepugaso set limits.layout 4 .0 -5 block.bin
lepugaso: refused 25: -5 is outside the numbers of type u32
[1]
$ lepugaso set limits.layout 4 .0 frost block.bin
lepugaso: frost is no value of type u32
[1]
$ lepugaso set kinds.layout 3 . 65520 block.bin
lepugaso: refused 25: 65520 is outside the numbers of type f16
[1]
$ lepugaso set kinds.layout 12 .0 1 block.bin
lepugaso: refused 10: S12 holds a bool
[1]
$ lepugaso set limits.layout 9 .0 1 block.bin
lepugaso: refused 8: there is no entry 9, the file has 5, counted from 0
[1]
$ lepugaso get limits.layout 4 1 block.bin
lepugaso: 1 is no path: .1[2] is member 1, then index 2, and . the entry itself
usage: lepugaso get FILE ENTRY PATH [BUFFER]
[2]
$ lepugaso get limits.layout 4 .99999999999 block.bin
lepugaso: .99999999999 is no path: .1[2] is member 1, then index 2, and . the entry itself
usage: lepugaso get FILE ENTRY PATH [BUFFER]
[2]
$ lepugaso set limits.layout 4 .0 1 -
lepugaso: standard input cannot be set in place
usage: lepugaso set FILE ENTRY PATH VALUE BUFFER
[2]
$ lepugaso set limits.layout 4 .0 1
lepugaso: which file, entry, path, value and buffer?
usage: lepugaso set FILE ENTRY PATH VALUE BUFFER
[2]
$ lepugaso get limits.layout 4
lepugaso: which file, entry and path?
usage: lepugaso get FILE ENTRY PATH [BUFFER]
[2]
$ lepugaso get --help
usage: lepugaso get FILE ENTRY PATH [BUFFER]

The scalar at PATH, as read writes it; of a path to more, all scalars there.

-o OUT writes to OUT what would go to standard output: all of it or nothing.
$ lepugaso set --help
usage: lepugaso set FILE ENTRY PATH VALUE BUFFER

Stores VALUE in the scalar at PATH, in place. No other byte changes.

-o OUT writes to OUT what would go to standard output: all of it or nothing.

## Fields of a few bits.
$ lepugaso bits i32 4095 0 12; lepugaso bits i32 2048 0 12; lepugaso bits i32 2047 0 12; lepugaso bits u32 4095 0 12; lepugaso bits i32 0 0 12 -40
-1
-2048
2047
4095
4056
$ lepugaso bits limits.layout 4 .0 16 12 block.bin 300 && lepugaso bits limits.layout 4 .0 16 12 block.bin && lepugaso get limits.layout 4 .0 block.bin
300
       0  .0          u32   19660807      0x012c0007
$ lepugaso bits limits.layout 4 .2 0 12 block.bin
lepugaso: refused 14: the path leads to f32, which is no i32 or u32
[1]
$ lepugaso bits limits.layout 4 .1[7] 0 12 block.bin
lepugaso: refused 12 at step 1: index 7, but a vec3<f32> has 3
[1]
$ lepugaso bits limits.layout 4 .0 0 12 block.bin -1
lepugaso: refused 25: -1 is outside the numbers of type u32
[1]
$ lepugaso bits limits.layout 4 .0 x 12 block.bin
lepugaso: x is no number for an offset
usage: lepugaso bits FILE ENTRY PATH OFFSET COUNT BUFFER [VALUE]
       lepugaso bits i32|u32 NUMBER OFFSET COUNT [VALUE]
[2]
$ lepugaso bits i32
lepugaso: a number's field takes 4 arguments, or 5
usage: lepugaso bits FILE ENTRY PATH OFFSET COUNT BUFFER [VALUE]
       lepugaso bits i32|u32 NUMBER OFFSET COUNT [VALUE]
[2]
$ lepugaso bits limits.layout 4 .0 0 12 - 1
lepugaso: standard input cannot be changed in place
usage: lepugaso bits FILE ENTRY PATH OFFSET COUNT BUFFER [VALUE]
       lepugaso bits i32|u32 NUMBER OFFSET COUNT [VALUE]
[2]
$ lepugaso bits --help
usage: lepugaso bits FILE ENTRY PATH OFFSET COUNT BUFFER [VALUE]
       lepugaso bits i32|u32 NUMBER OFFSET COUNT [VALUE]

The field of COUNT bits from bit OFFSET on of the i32 or u32 at PATH, or of NUMBER. With VALUE its low bits become the field, in
place.

-o OUT writes to OUT what would go to standard output: all of it or nothing.

## Gaps.
$ yes | head -c 50 >rubbish.bin; lepugaso clean limits.layout 4 rubbish.bin; lepugaso clean limits.layout 4 rubbish.bin; od -A d -t x1 rubbish.bin
16 bytes changed, the first at 4
0 bytes changed, none of 48
0000000 79 0a 79 0a 00 00 00 00 00 00 00 00 00 00 00 00
0000016 79 0a 79 0a 79 0a 79 0a 79 0a 79 0a 79 0a 79 0a
0000032 79 0a 79 0a 79 0a 79 0a 79 0a 79 0a 00 00 00 00
0000048 79 0a
0000050
$ head -c 47 rubbish.bin >short.bin; lepugaso clean limits.layout 4 short.bin
lepugaso: refused 15: the buffer has 47 bytes, and S4 takes 48
[1]
$ lepugaso clean kinds.layout 12 rubbish.bin
lepugaso: refused 10: S12 holds a bool
[1]
$ lepugaso clean limits.layout 4
lepugaso: which file, entry and buffer?
usage: lepugaso clean FILE ENTRY BUFFER
[2]
$ lepugaso clean limits.layout 4 -
lepugaso: standard input cannot be cleaned in place
usage: lepugaso clean FILE ENTRY BUFFER
[2]
$ lepugaso clean --help
usage: lepugaso clean FILE ENTRY BUFFER

Makes 0 every byte of the entry that holds no scalar, in place. Says how many changed.

-o OUT writes to OUT what would go to standard output: all of it or nothing.
