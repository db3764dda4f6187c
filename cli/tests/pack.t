## A layout file in words, and back.
$ lepugaso unpack limits.layout
u32                           # 0: u32
f32                           # 1: f32
vector 3 of 1                 # 2: vec3<f32>
vector 2 of 1                 # 3: vec2<f32>
struct of members 0 to 4      # 4: S4

# members
member 0                      # 0
member 2                      # 1
member 1                      # 2
member 3                      # 3
member 0                      # 4
$ lepugaso unpack kinds.layout
i32                           # 0: i32
u32                           # 1: u32
f32                           # 2: f32
f16                           # 3: f16
i64                           # 4: i64
u64                           # 5: u64
f64                           # 6: f64
atomic of 1                   # 7: atomic<u32>
matrix 2 by 3 of 3            # 8: mat2x3<f16>
vector 3 of 2                 # 9: vec3<f32>
array 2 of 9                  # 10: array<vec3<f32>, 2>
bool                          # 11: bool
struct of member 11           # 12: S12
abstract int                  # 13: AbstractInt
array 2 of 2                  # 14: array<f32, 2>
runtime array of 9            # 15: array<vec3<f32>>
struct of members 12 to 13    # 16: S16
struct of members 0 to 10     # 17: S17
struct of members 14 to 15    # 18: S18
struct of members 16 to 18    # 19: S19

# members
member 0                      # 0
member 1                      # 1
member 2                      # 2
member 3                      # 3
member 4                      # 4
member 5                      # 5
member 6                      # 6
member 7                      # 7
member 8                      # 8
member 10                     # 9
member 16                     # 10
member 11                     # 11
member 3                      # 12
member 1                      # 13
member 1                      # 14
member 15                     # 15
member 1 size 20              # 16
member 1 align 16             # 17
member 14                     # 18
$ lepugaso unpack limits.layout | lepugaso pack | cmp - limits.layout
$ printf 'form 2\nf32\nstruct of member 0\nmember 0 size 8 align 16 name 4294967295' | lepugaso pack | lepugaso unpack -
form 2
f32                           # 0: f32
struct of member 0            # 1: S1

# members
member 0 size 8 align 16 name 4294967295 # 0
$ printf 'bytes 01 ff*20 00\nf32\nruntime array of 0\natomic of 0\ni64\nu64\nf64\nbool\nf16\nabstract float' | lepugaso pack | lepugaso unpack -
bytes 01 ff ff ff ff ff ff ff ff ff ff ff ff ff ff ff
bytes ff ff ff ff ff 00
f32                           # 0
runtime array of 0            # 1
atomic of 0                   # 2
i64                           # 3
u64                           # 4
f64                           # 5
bool                          # 6
f16                           # 7
abstract float                # 8
$ printf 'x' | lepugaso unpack -
bytes 78
$ lepugaso unpack /dev/null | lepugaso pack | wc -c
0
$ printf 'f32\nvector of 0' | lepugaso pack
lepugaso: line 2: `vector of 0`: expected how many rows, as in `vector 3 of 1`
[1]
$ printf 'f32\nvector 3 0' | lepugaso pack
lepugaso: line 2: `vector 3 0`: expected `of`, as in `vector 3 of 1`
[1]
$ printf 'f32\nvector 300 of 0' | lepugaso pack
lepugaso: line 2: `vector 300 of 0`: expected how many rows, at most 255
[1]
$ printf 'f32 f32' | lepugaso pack
lepugaso: line 1: `f32 f32`: expected nothing from `f32` on, as in `f32`
[1]
$ printf 'float' | lepugaso pack
lepugaso: line 1: `float`: no line begins with `float`; lepugaso(5) has the words
[1]
$ printf 'matrix 2 of 0' | lepugaso pack
lepugaso: line 1: `matrix 2 of 0`: expected `by`, as in `matrix 3 by 2 of 1`
[1]
$ printf 'array 4294967296 of 0' | lepugaso pack
lepugaso: line 1: `array 4294967296 of 0`: expected a count, at most 4294967295
[1]
$ printf 'runtime of 0' | lepugaso pack
lepugaso: line 1: `runtime of 0`: expected `array`, as in `runtime array of 4`
[1]
$ printf 'struct of members 3 to 2' | lepugaso pack
lepugaso: line 1: `struct of members 3 to 2`: expected a last member from 3 to 4294967297
[1]
$ printf 'member 0 name 3' | lepugaso pack
lepugaso: line 1: form 1 has no room for a name: expected a line `form 2`
[1]
$ printf 'member 0 align' | lepugaso pack
lepugaso: line 1: `member 0 align`: expected an align, as in `member 2 size 20 align 16 name 101`
[1]
$ printf 'form 70000' | lepugaso pack
lepugaso: line 1: `form 70000`: expected a form, at most 65535
[1]
$ printf 'f32\nbytes 00' | lepugaso pack
lepugaso: line 2: `bytes 00`: expected bytes before the first type or member
[1]
$ printf 'bytes 0g' | lepugaso pack
lepugaso: line 1: `bytes 0g`: expected a byte at `0g`, as in `bytes 00 ff 00*65537`
[1]
$ printf 'bytes' | lepugaso pack
lepugaso: line 1: `bytes`: expected a byte at the end, as in `bytes 00 ff 00*65537`
[1]
$ lepugaso pack nowhere.txt
lepugaso: nowhere.txt: No such file or directory
[1]
$ lepugaso pack limits.layout more
lepugaso: one file of lines at a time
usage: lepugaso pack [LINES]
[2]
$ lepugaso unpack
lepugaso: one layout file at a time
usage: lepugaso unpack FILE
[2]
$ lepugaso pack --help; lepugaso unpack --help
usage: lepugaso pack [LINES]

The layout file that LINES (standard input) describe in words; lepugaso(5) has the words.

-o OUT writes to OUT what would go to standard output: all of it or nothing.
usage: lepugaso unpack FILE

A layout file as lines of words; pack gives the same bytes.

-o OUT writes to OUT what would go to standard output: all of it or nothing.
