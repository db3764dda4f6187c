## Is a file good? Refusals 1 to 7 and 24 name what stands there.
$ lepugaso check limits.layout
good: 5 types, 5 members, form 1
$ lepugaso check kinds.layout
good: 20 types, 19 members, form 1
$ lepugaso list kinds.layout
entries 20
0 4 4 4
1 4 4 4
2 4 4 4
3 2 2 2
4 8 8 8
5 8 8 8
6 8 8 8
7 4 4 4
8 16 8 16
9 12 16 16
10 32 16 32
11 4 4 4
12 4 4 4
13 - - -
14 8 4 8
15 - 16 16
16 8 4 8
17 112 16 112
18 - 16 -
19 48 16 48
$ lepugaso list limits.layout -o listed && cat listed
entries 5
0 4 4 4
1 4 4 4
2 12 16 16
3 8 8 8
4 48 16 48
$ lepugaso check limits.layout -o -
good: 5 types, 5 members, form 1
$ printf '123456789' | lepugaso check -
lepugaso: refused 1: the file has 9 bytes, and its trailer alone would have 10
[1]
$ printf 'f32\nform 3' | lepugaso pack | lepugaso check -
lepugaso: refused 2: the file has form 3, and there are 1 and 2
[1]
$ printf 'bytes 00*10' | lepugaso pack | lepugaso check -
lepugaso: refused 2: the file has form 0, and there are 1 and 2
[1]
$ printf 'bytes 00*8 01 00' | lepugaso pack | lepugaso check -
lepugaso: refused 3: 0 types and 0 members, and there are 1 to 256 types and at most 1,024 members
[1]
$ printf 'bytes 01 00 02 00 05 00 00 00 01 00' | lepugaso pack | lepugaso check -
lepugaso: refused 4: the file has 10 bytes, and its trailer says 51: start 5, types 1, members 2, form 1
[1]
$ printf 'type kind 16 columns 0 rows 0 zero 0 reference 0 zeros 0 count 0' | lepugaso pack | lepugaso check -
lepugaso: refused 5 at entry 0: there is no kind 16
[1]
$ printf 'type kind 3 columns 0 rows 2 zero 0 reference 0 zeros 0 count 0' | lepugaso pack | lepugaso check -
lepugaso: refused 5 at entry 0: rows is not 0, and a type of kind f32 does not use it
[1]
$ printf 'f32\nvector 5 of 0' | lepugaso pack | lepugaso check -
lepugaso: refused 5 at entry 1: it has 2 to 4 rows
[1]
$ printf 'f32\nmatrix 1 by 3 of 0' | lepugaso pack | lepugaso check -
lepugaso: refused 5 at entry 1: it has 2 to 4 rows and 2 to 4 columns
[1]
$ printf 'f32\nvector 3 of 1' | lepugaso pack | lepugaso check -
lepugaso: refused 5 at entry 1: it refers to entry 1, which is not below it
[1]
$ printf 'u32\nmatrix 2 by 2 of 0' | lepugaso pack | lepugaso check -
lepugaso: refused 5 at entry 1: a matrix of entry 0, which is of kind u32
[1]
$ printf 'f32\narray 0 of 0' | lepugaso pack | lepugaso check -
lepugaso: refused 5 at entry 1: an array has 1 element at least
[1]
$ printf 'f32\nruntime array of 0\narray 2 of 1' | lepugaso pack | lepugaso check -
lepugaso: refused 5 at entry 2: its element, entry 1, is open or has no size or alignment
[1]
$ printf 'f32\nstruct of members 0 to 1\nmember 0' | lepugaso pack | lepugaso check -
lepugaso: refused 5 at entry 1: its members would be 0 to 1, and the file has 1
[1]
$ printf 'f32\nstruct of member 0\nmember 1' | lepugaso pack | lepugaso check -
lepugaso: refused 5 at entry 1: its member 0 is of entry 1, which is not below it
[1]
$ printf 'f32\nstruct of member 0\nmember 0 flags 4 size 0 align 0' | lepugaso pack | lepugaso check -
lepugaso: refused 5 at entry 1: its member 0 has flags 4, and there are 1 and 2
[1]
$ printf 'f32\nstruct of member 0\nmember 0 flags 0 size 4 align 0' | lepugaso pack | lepugaso check -
lepugaso: refused 5 at entry 1: its member 0 has a size or an align that its flags do not give
[1]
$ printf 'abstract int\nstruct of member 0\nmember 0' | lepugaso pack | lepugaso check -
lepugaso: refused 5 at entry 1: its member 0 is of entry 0, which has no size or no alignment
[1]
$ printf 'f32\nstruct of member 0\nmember 0 size 2' | lepugaso pack | lepugaso check -
lepugaso: refused 6 at entry 1: its member 0 has size 2, and its type takes 4
[1]
$ printf 'f32\nstruct of member 0\nmember 0 align 12' | lepugaso pack | lepugaso check -
lepugaso: refused 6 at entry 1: its member 0 has align 12, which is no power of two
[1]
$ printf 'f32\nvector 2 of 0\nstruct of members 0 to 1\nmember 0\nmember 1 align 4' | lepugaso pack | lepugaso check -
lepugaso: refused 6 at entry 2: its member 1 has align 4, and its type is aligned to 8
[1]
$ printf 'f32\nruntime array of 0\nstruct of member 0\nmember 1 size 8' | lepugaso pack | lepugaso check -
lepugaso: refused 6 at entry 2: its member 0 is a runtime array, and takes no size
[1]
$ printf 'f32\narray 1073741823 of 0\narray 1073741824 of 0' | lepugaso pack | lepugaso check -
lepugaso: refused 7 at entry 2: a size, an offset or another number of this array is above 4,294,967,295
[1]
$ printf 'f32\nstruct of member 1\nmember 0\nmember 0' | lepugaso pack | lepugaso check -
lepugaso: refused 24 at member 0: no struct has it among its members
[1]
$ lepugaso check nowhere.layout
lepugaso: nowhere.layout: No such file or directory
[1]
$ lepugaso check .
lepugaso: .: Is a directory
[1]
$ lepugaso check
lepugaso: which file?
usage: lepugaso check FILE
[2]
$ lepugaso check limits.layout kinds.layout
lepugaso: one file at a time
usage: lepugaso check FILE
[2]
$ lepugaso list
lepugaso: which file?
usage: lepugaso list FILE
[2]
$ lepugaso list --help
usage: lepugaso list FILE

A line for each entry: its number, size, alignment and stride, - for one that it does not have.

-o OUT writes to OUT what would go to standard output: all of it or nothing.
$ lepugaso check limits.layout -o
lepugaso: -o takes one file
usage: lepugaso check FILE
[2]
$ lepugaso check limits.layout -o nowhere/out
lepugaso: nowhere/out: No such file or directory
[1]
