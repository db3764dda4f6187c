## Where members lie, and the gaps.
$ lepugaso map limits.layout
S4, entry 4
offset  size  align  member
     0     4      4  0: u32
     4    12         (12 bytes before member 1)
    16    12     16  1: vec3<f32>
    28     4      4  2: f32
    32     8      8  3: vec2<f32>
    40     4      4  4: u32
    44     4         (4 bytes at the end)
48 bytes, align 16: 32 of scalars, 16 in gaps, 33.3 %
$ lepugaso map limits.layout 2
vec3<f32>, entry 2
offset  size  align  type
     0    12     16  vec3<f32>
12 bytes, align 16: 12 of scalars, no gaps
$ lepugaso map limits.layout --json
[
{"entry":4,"type":"S4","path":".","offset":0,"size":48,"align":16,"stride":48,"members":[
 {"member":0,"entry":0,"type":"u32","path":".0","offset":0,"size":4,"align":4,"scalar":"u32"},
 {"member":1,"entry":2,"type":"vec3<f32>","path":".1","offset":16,"size":12,"align":16,"rows":3,"scalar":"f32","scalar_size":4,"scalar_stride":4},
 {"member":2,"entry":1,"type":"f32","path":".2","offset":28,"size":4,"align":4,"scalar":"f32"},
 {"member":3,"entry":3,"type":"vec2<f32>","path":".3","offset":32,"size":8,"align":8,"rows":2,"scalar":"f32","scalar_size":4,"scalar_stride":4},
 {"member":4,"entry":0,"type":"u32","path":".4","offset":40,"size":4,"align":4,"scalar":"u32"}],"gaps":[{"offset":4,"size":12,"before":1},{"offset":44,"size":4,"at_end":true}],"bytes":48,"scalars":32,"gap_bytes":16}
]
$ lepugaso map kinds.layout
S12, entry 12
offset  size  align  member
     0     4      4  0: bool
4 bytes, align 4: 4 of scalars, no gaps

AbstractInt, entry 13: it has no layout

S17, entry 17
offset  size  align  member
     0     4      4  0: i32
     4     4      4  1: u32
     8     4      4  2: f32
    12     2      2  3: f16
    14     2         (2 bytes before member 4)
    16     8      8  4: i64
    24     8      8  5: u64
    32     8      8  6: f64
    40     4      4  7: atomic<u32>
    44     4         (4 bytes before member 8)
    48    16      8  8: mat2x3<f16>
    54     2           (2 bytes after each of 2 columns)
    64    32     16  9: array<vec3<f32>, 2>, every 16 bytes
    76     4           (4 bytes after each of 2 elements)
    96     8      4  10: S16
    96     2      2    0: f16
    98     2           (2 bytes before member 1)
   100     4      4    1: u32
   104     8         (8 bytes at the end)
112 bytes, align 16: 84 of scalars, 28 in gaps, 25.0 %

S18, entry 18
offset  size  align  member
     0     4      4  0: u32
     4    12         (12 bytes before member 1)
    16     -     16  1: array<vec3<f32>>, every 16 bytes
    28     4           (4 bytes after each element)
align 16, fixed part 16 bytes: 4 of scalars, 12 in gaps, 75.0 %; each element 16 bytes: 12 of scalars, 4 in gaps, 25.0 %

S19, entry 19
offset  size  align  member
     0     4      4  0: @size(20) u32
     4    28         (28 bytes before member 1)
    32     4     16  1: @align(16) u32
    36     8      4  2: array<f32, 2>, every 4 bytes
    44     4         (4 bytes at the end)
48 bytes, align 16: 16 of scalars, 32 in gaps, 66.7 %
$ lepugaso map kinds.layout 18 --json
[
{"entry":18,"type":"S18","path":".","offset":0,"size":null,"align":16,"stride":null,"members":[
 {"member":0,"entry":1,"type":"u32","path":".0","offset":0,"size":4,"align":4,"scalar":"u32"},
 {"member":1,"entry":15,"type":"array<vec3<f32>>","path":".1","offset":16,"size":null,"align":16,"count":null,"stride":16,"gap_after_each":4,"element":
  {"entry":9,"type":"vec3<f32>","path":".1[0]","offset":16,"size":12,"align":16,"rows":3,"scalar":"f32","scalar_size":4,"scalar_stride":4}}],"gaps":[{"offset":4,"size":12,"before":1}],"bytes":null,"scalars":null,"gap_bytes":null,"fixed_bytes":16,"fixed_scalars":4,"fixed_gap_bytes":12,"each_bytes":16,"each_scalars":12,"each_gap_bytes":4}
]
$ lepugaso map receiver.layout
S6, entry 6
offset  size  align  member
     0     4      4  0: u32
     4    28         (28 bytes before member 1)
    32     -     32  1: array<S4>, every 128 bytes
    32   128     32    [0]: S4
    32     4      4      0: u32
    36    12             (12 bytes before member 1)
    48    12     16      1: vec3<f32>
    60     4      4      2: f32
    64    96     32      3: @align(32) array<f32, 24>, every 4 bytes
align 32, fixed part 32 bytes: 4 of scalars, 28 in gaps, 87.5 %; each element 128 bytes: 116 of scalars, 12 in gaps, 9.4 %
$ lepugaso map receiver.layout 3 --json
[
{"entry":3,"type":"array<f32, 24>","path":".","offset":0,"size":96,"align":4,"count":24,"stride":4,"gap_after_each":0,"element":
 {"entry":1,"type":"f32","path":"[0]","offset":0,"size":4,"align":4,"scalar":"f32"},"bytes":96,"scalars":96,"gap_bytes":0}
]
$ lepugaso map limits.layout --svg limits.svg && head -n 1 limits.svg | cut -c 1-39
<svg xmlns="http://www.w3.org/2000/svg"
$ lepugaso map limits.layout --svg - | cmp - limits.svg
$ lepugaso map limits.layout --svg also.svg -o empty && cmp also.svg limits.svg && wc -c <empty
0
$ lepugaso map limits.layout 9
lepugaso: refused 8: there is no entry 9, the file has 5, counted from 0
[1]
$ lepugaso map kinds.layout 13
lepugaso: refused 9: AbstractInt has no layout
[1]
$ lepugaso map limits.layout 4 5
lepugaso: 5 is one argument too many
usage: lepugaso map FILE [ENTRY] [--json | --svg OUT]
[2]
$ lepugaso map limits.layout --svg
lepugaso: --svg takes one file
usage: lepugaso map FILE [ENTRY] [--json | --svg OUT]
[2]
$ lepugaso map limits.layout --json --svg x
lepugaso: --json and --svg are two maps
usage: lepugaso map FILE [ENTRY] [--json | --svg OUT]
[2]
$ lepugaso map limits.layout --png x
lepugaso: there is no option --png
usage: lepugaso map FILE [ENTRY] [--json | --svg OUT]
[2]
$ lepugaso map limits.layout --svg nowhere/x
lepugaso: nowhere/x: No such file or directory
[1]
$ lepugaso map
lepugaso: which layout file?
usage: lepugaso map FILE [ENTRY] [--json | --svg OUT]
[2]
$ lepugaso map --help
usage: lepugaso map FILE [ENTRY] [--json | --svg OUT]

Where the members of an entry lie, and the gaps between them. Without ENTRY, of every entry that no other is made of. --json for
scripts, --svg a picture of its bytes.

-o OUT writes to OUT what would go to standard output: all of it or nothing.
