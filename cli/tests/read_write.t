## Scalars as lines, and lines as bytes.
$ printf '7\n12\n4.5\n.25\n-1.5\n20\n7\n1\n' | lepugaso write limits.layout 4 -o limits.bin && od -A d -t x1 limits.bin
0000000 07 00 00 00 00 00 00 00 00 00 00 00 00 00 00 00
0000016 00 00 40 41 00 00 90 40 00 00 80 3e 00 00 c0 bf
0000032 00 00 a0 41 00 00 e0 40 01 00 00 00 00 00 00 00
0000048
$ lepugaso read limits.layout 4 limits.bin
       0  .0          u32   7             0x00000007
      16  .1[0]       f32   12            0x41400000
      20  .1[1]       f32   4.5           0x40900000
      24  .1[2]       f32   0.25          0x3e800000
      28  .2          f32   -1.5          0xbfc00000
      32  .3[0]       f32   20            0x41a00000
      36  .3[1]       f32   7             0x40e00000
      40  .4          u32   1             0x00000001
$ lepugaso read limits.layout 4 <limits.bin | lepugaso write limits.layout 4 | cmp - limits.bin
$ lepugaso read limits.layout 4 limits.bin -o lines && sed -i 's/-1.5  .*/-2.3/' lines && lepugaso write limits.layout 4 lines | od -A d -t x1
0000000 07 00 00 00 00 00 00 00 00 00 00 00 00 00 00 00
0000016 00 00 40 41 00 00 90 40 00 00 80 3e 33 33 13 c0
0000032 00 00 a0 41 00 00 e0 40 01 00 00 00 00 00 00 00
0000048

## All kinds, what no literal says too.
$ printf '%s\n' -2147483648 4294967295 nan 65504 -9223372036854775808 18446744073709551615 -0 7 1 2 3 -inf 'nan(0xfc01)' 6.1e-5 0.1 16777217 1e-45 inf 3.4028235e38 'nan(0xff800001)' 0.3333 0xff >all
$ lepugaso write kinds.layout 17 all -o all.bin && lepugaso read kinds.layout 17 all.bin
       0  .0          i32   -2147483648   0x80000000
       4  .1          u32   4294967295    0xffffffff
       8  .2          f32   nan(0x7fc00000)  0x7fc00000
      12  .3          f16   65504         0x7bff
      16  .4          i64   -9223372036854775808  0x8000000000000000
      24  .5          u64   18446744073709551615  0xffffffffffffffff
      32  .6          f64   -0            0x8000000000000000
      40  .7          atomic<u32>  7             0x00000007
      48  .8[0][0]    f16   1             0x3c00
      50  .8[0][1]    f16   2             0x4000
      52  .8[0][2]    f16   3             0x4200
      56  .8[1][0]    f16   -inf          0xfc00
      58  .8[1][1]    f16   nan(0xfc01)   0xfc01
      60  .8[1][2]    f16   6.1e-05       0x03ff
      64  .9[0][0]    f32   0.1           0x3dcccccd
      68  .9[0][1]    f32   16777216      0x4b800000
      72  .9[0][2]    f32   1.4013e-45    0x00000001
      80  .9[1][0]    f32   inf           0x7f800000
      84  .9[1][1]    f32   3.4028235e+38  0x7f7fffff
      88  .9[1][2]    f32   nan(0xff800001)  0xff800001
      96  .10.0       f16   0.3333        0x3555
     100  .10.1       u32   255           0x000000ff
$ lepugaso read kinds.layout 17 all.bin | lepugaso write kinds.layout 17 | cmp - all.bin

## Open types have as many elements as the buffer has whole, and as the lines fill.
$ printf '1\n' | lepugaso write kinds.layout 18
lepugaso: refused 14: 1 value was given, and S18 has 1, then 3 for each element, of which there is one at least
[1]
$ printf '1\n2\n3\n4\n5\n6\n7\n' | lepugaso write kinds.layout 18 -o open.bin && lepugaso read kinds.layout 18 open.bin
       0  .0          u32   1             0x00000001
      16  .1[0][0]    f32   2             0x40000000
      20  .1[0][1]    f32   3             0x40400000
      24  .1[0][2]    f32   4             0x40800000
      32  .1[1][0]    f32   5             0x40a00000
      36  .1[1][1]    f32   6             0x40c00000
      40  .1[1][2]    f32   7             0x40e00000
$ head -c 47 open.bin | lepugaso read kinds.layout 18
       0  .0          u32   1             0x00000001
      16  .1[0][0]    f32   2             0x40000000
      20  .1[0][1]    f32   3             0x40400000
      24  .1[0][2]    f32   4             0x40800000
$ head -c 31 open.bin | lepugaso read kinds.layout 18
lepugaso: refused 15: the buffer has 31 bytes, and S18 has no whole element there
[1]

## What is refused, and what a line cannot be.
$ lepugaso read limits.layout 5 limits.bin
lepugaso: refused 8: there is no entry 5, the file has 5, counted from 0
[1]
$ lepugaso read kinds.layout 12 limits.bin
lepugaso: refused 10: S12 holds a bool
[1]
$ lepugaso read kinds.layout 13 limits.bin
lepugaso: refused 9: AbstractInt has no layout
[1]
$ head -c 44 limits.bin | lepugaso read limits.layout 4
lepugaso: refused 15: the buffer has 44 bytes, and S4 takes 48
[1]
$ truncate -s 4294967296 long.bin && lepugaso read limits.layout 4 long.bin
lepugaso: refused 17: a buffer has 4294967296 bytes, and it may have 4294967295
[1]
$ printf '1\n2\n' | lepugaso write limits.layout 4
lepugaso: refused 14: 2 values were given, and S4 has 8
[1]
$ yes 1 | head -n 9 | lepugaso write limits.layout 4
lepugaso: refused 14: 9 values were given, and S4 has 8
[1]
$ lepugaso write kinds.layout 12 /dev/null
lepugaso: refused 10: S12 holds a bool
[1]
$ echo 4294967296 | lepugaso write limits.layout 0
lepugaso: line 1: refused 25: 4294967296 is outside the numbers of type u32
[1]
$ echo 1.5 | lepugaso write limits.layout 0
lepugaso: line 1: refused 25: 1.5 is outside the numbers of type u32
[1]
$ echo 1e39 | lepugaso write limits.layout 1
lepugaso: line 1: refused 25: 1e39 is outside the numbers of type f32
[1]
$ echo frost | lepugaso write limits.layout 1
lepugaso: line 1: frost is no value of type f32
[1]
$ echo .2 1 | lepugaso write limits.layout 4
lepugaso: line 1: .2, but .0 comes next
[1]
$ echo .x 1 | lepugaso write limits.layout 4
lepugaso: line 1: .x is no path
[1]
$ echo 0 .0 f32 1 | lepugaso write limits.layout 4
lepugaso: line 1: type f32, but it is u32
[1]
$ echo 4 .0 u32 1 | lepugaso write limits.layout 4
lepugaso: line 1: offset 4, but it is 0
[1]
$ echo 0 .0 u32 1 0x00000002 | lepugaso write limits.layout 4
lepugaso: line 1: bits 0x00000002, but 1 is 0x00000001: leave out the bits to write the value
[1]
$ echo 0 .0 u32 | lepugaso write limits.layout 4
lepugaso: line 1: a line is a value, a path and a value, or offset, path, type, value and bits
[1]
$ lepugaso read
lepugaso: which file and entry?
usage: lepugaso read FILE ENTRY [BUFFER]
[2]
$ lepugaso read limits.layout four limits.bin
lepugaso: four is no number for an entry
usage: lepugaso read FILE ENTRY [BUFFER]
[2]
$ lepugaso write limits.layout 4 lines more
lepugaso: too many arguments
usage: lepugaso write FILE ENTRY [LINES]
[2]
$ lepugaso read --help
usage: lepugaso read FILE ENTRY [BUFFER]

A line for each scalar of the entry in BUFFER (standard input): offset, path, type, value, bits.

-o OUT writes to OUT what would go to standard output: all of it or nothing.
$ lepugaso write --help
usage: lepugaso write FILE ENTRY [LINES]

The bytes of an entry from LINES (standard input): lines as read writes them, or a path and a value, or a value alone on each, in
the order of read. Bytes that hold no scalar are 0.

-o OUT writes to OUT what would go to standard output: all of it or nothing.
