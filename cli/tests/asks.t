## Uniform buffers.
$ lepugaso uniform limits.layout 4
S4 may live in a uniform buffer
$ lepugaso uniform kinds.layout 7
lepugaso: refused 19 at entry 7: atomic<u32> is atomic
[1]
$ lepugaso uniform kinds.layout 14
lepugaso: refused 19 at entry 14: array<f32, 2> has its elements every 4 bytes, and it must be a multiple of 16
[1]
$ lepugaso uniform kinds.layout 19
lepugaso: refused 19 at entry 14: array<f32, 2> has its elements every 4 bytes, and it must be a multiple of 16
[1]
$ lepugaso uniform kinds.layout 12
lepugaso: refused 10: S12 holds a bool
[1]
$ lepugaso uniform kinds.layout 18
lepugaso: refused 9: S18 has no fixed size
[1]
$ lepugaso uniform kinds.layout 99
lepugaso: refused 8: there is no entry 99, the file has 20, counted from 0
[1]
$ printf 'f32\nstruct of members 0 to 1\nstruct of members 2 to 3\nmember 0\nmember 0\nmember 1\nmember 0' | lepugaso pack -o hours.layout; lepugaso uniform hours.layout 2
lepugaso: refused 19 at entry 2: S2: member 1 at offset 8 follows a struct at 0, and may not start before 16
[1]
$ printf 'f32\nstruct of member 0\nstruct of members 1 to 2\nmember 0\nmember 0\nmember 1' | lepugaso pack -o late.layout; lepugaso uniform late.layout 2
lepugaso: refused 19 at entry 2: S2: member 1 is a struct at offset 4, and it must be at a multiple of 16
[1]
$ lepugaso uniform limits.layout
lepugaso: which file and entry?
usage: lepugaso uniform FILE ENTRY
[2]
$ lepugaso uniform --help
usage: lepugaso uniform FILE ENTRY

May the entry live in a uniform buffer?

-o OUT writes to OUT what would go to standard output: all of it or nothing.

## Orders.
$ printf 'u32\nvector 4 of 0\nstruct of members 0 to 2\nmember 0\nmember 1\nmember 0' | lepugaso pack -o loose.layout; lepugaso order loose.layout 2
1 0 2
32 bytes for 48
$ lepugaso order loose.layout 2 1 0 2
32 bytes for 48
$ lepugaso order loose.layout 2 0 1 2
lepugaso: refused 23: S2 would not be smaller in that order
[1]
$ lepugaso order loose.layout 2 0 1
lepugaso: refused 23: S2 has 3 members, and 2 positions were given
[1]
$ lepugaso order loose.layout 2 0 1 1
lepugaso: refused 23: S2 has each member once, and position 1 was given twice
[1]
$ lepugaso order loose.layout 2 0 1 3
lepugaso: refused 23: S2 has members 0 to 2, and position 3 was given
[1]
$ lepugaso order loose.layout 1
lepugaso: refused 9: vec4<u32> has no members
[1]
$ lepugaso order loose.layout 7
lepugaso: refused 8: there is no entry 7, the file has 3, counted from 0
[1]
$ lepugaso order limits.layout 4
1 3 0 2 4
lepugaso: refused 23: S4 would not be smaller in that order
[1]
$ lepugaso order kinds.layout 18 1 0
lepugaso: refused 23: S18 has a runtime array, which stays last
[1]
$ lepugaso order
lepugaso: which file and entry?
usage: lepugaso order FILE ENTRY [POSITION...]
[2]
$ lepugaso order --help
usage: lepugaso order FILE ENTRY [POSITION...]

Would the struct be smaller with its members in that order? Without one, in the order that the planner offers.

-o OUT writes to OUT what would go to standard output: all of it or nothing.

## Forms.
$ lepugaso form limits.layout 2 -o limits2.layout && lepugaso check limits2.layout && lepugaso form limits2.layout 1 | cmp - limits.layout
good: 5 types, 5 members, form 2
$ lepugaso form limits.layout 1
lepugaso: refused 2: the file has form 1 already
[1]
$ lepugaso form limits2.layout 2
lepugaso: refused 2: the file has form 2 already
[1]
$ printf 'form 2\nf32\nstruct of members 0 to 1\nmember 0\nmember 0 name 101' | lepugaso pack -o named.layout; lepugaso form named.layout 1
lepugaso: refused 20: member 1 has name 101, and form 1 has no room for it
[1]
$ lepugaso form limits.layout 3
lepugaso: there is no form 3
usage: lepugaso form FILE 1|2
[2]
$ lepugaso form limits.layout
lepugaso: which file, and which form?
usage: lepugaso form FILE 1|2
[2]
$ lepugaso form --help
usage: lepugaso form FILE 1|2

The layout file in form 1 or 2.

-o OUT writes to OUT what would go to standard output: all of it or nothing.

## Ranks, common types, literals.
$ lepugaso rank kinds.layout 13 2
6
$ lepugaso rank kinds.layout 2 13
lepugaso: refused 18: f32 is not converted to AbstractInt by itself
[1]
$ lepugaso rank kinds.layout 2 99
lepugaso: refused 8: there is no entry 99, the file has 20, counted from 0
[1]
$ lepugaso common kinds.layout 13 2 13
2 f32
$ lepugaso common kinds.layout 0 1
lepugaso: refused 18: there is no type that all of them are converted to
[1]
$ lepugaso common kinds.layout 0 77
lepugaso: refused 8: there is no entry 77, the file has 20, counted from 0
[1]
$ lepugaso common kinds.layout
lepugaso: refused 18: no entry was given
[1]
$ lepugaso convert abstract-int 2049 f16; lepugaso convert abstract-float 65519 f16; lepugaso convert abstract-float -0 f32; lepugaso convert f32 'nan(0x7fc00001)' f32
2048  0x6800
65504  0x7bff
-0  0x80000000
nan(0x7fc00001)  0x7fc00001
$ lepugaso convert abstract-float 65520 f16
lepugaso: refused 25: 65520 is outside the numbers of type f16
[1]
$ lepugaso convert abstract-int 4294967296 u32
lepugaso: refused 25: 4294967296 is outside the numbers of type u32
[1]
$ lepugaso convert f32 1 i32
lepugaso: refused 25: f32 is not converted to i32 by itself
[1]
$ lepugaso convert f32 x f32
lepugaso: x is no value of type f32
[1]
$ lepugaso convert vector 1 f32
lepugaso: vector is no kind of scalar
usage: lepugaso convert KIND VALUE KIND
[2]
$ lepugaso convert f32 1
lepugaso: from which kind, which value, to which kind?
usage: lepugaso convert KIND VALUE KIND
[2]
$ lepugaso rank kinds.layout
lepugaso: which file, and from which entry to which?
usage: lepugaso rank FILE FROM TO
[2]
$ lepugaso common
lepugaso: which file and entries?
usage: lepugaso common FILE ENTRY...
[2]
$ lepugaso rank --help; lepugaso common --help; lepugaso convert --help
usage: lepugaso rank FILE FROM TO

How far WGSL's automatic conversion from entry FROM to entry TO is.

-o OUT writes to OUT what would go to standard output: all of it or nothing.
usage: lepugaso common FILE ENTRY...

The entry that all entries of a list convert to.

-o OUT writes to OUT what would go to standard output: all of it or nothing.
usage: lepugaso convert KIND VALUE KIND

A literal as one of another kind, as WGSL converts it by itself. The kinds: bool, i32, u32, f32, f16, i64, u64, f64, abstract-int,
abstract-float.

-o OUT writes to OUT what would go to standard output: all of it or nothing.
