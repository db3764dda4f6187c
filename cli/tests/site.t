## A factory sheet and a site block.
$ printf '7\n12\n4.5\n.25\n-1.5\n20\n7\n1\n' | lepugaso write limits.layout 4 -o factory.bin
$ lepugaso site fresh limits.layout 4 factory.bin site.bin && cmp factory.bin site.bin
mask 31
$ lepugaso site set limits.layout 4 31 2 . -2.5 factory.bin site.bin && lepugaso site member limits.layout 4 31 2 factory.bin site.bin
mask 31
the site's
      28  .2          f32   -2.5          0xc0200000
$ lepugaso site clear limits.layout 4 31 2
mask 27
$ lepugaso site member limits.layout 4 27 2 factory.bin site.bin
the factory's
      28  .2          f32   -1.5          0xbfc00000
$ lepugaso site inheriting limits.layout 4
mask 0
$ lepugaso site set limits.layout 4 0 1 [2] 8 factory.bin site.bin && lepugaso site member limits.layout 4 2 1 factory.bin site.bin
mask 2
the site's
      16  .1[0]       f32   12            0x41400000
      20  .1[1]       f32   4.5           0x40900000
      24  .1[2]       f32   8             0x41000000
$ lepugaso site inheriting limits.layout 3
lepugaso: refused 21: vec2<f32> is no struct
[1]
$ lepugaso site inheriting kinds.layout 18
lepugaso: refused 21: S18 ends in a runtime array
[1]
$ lepugaso site inheriting kinds.layout 12
lepugaso: refused 10: S12 holds a bool
[1]
$ lepugaso site inheriting kinds.layout 13
lepugaso: refused 9: AbstractInt has no layout
[1]
$ lepugaso site inheriting kinds.layout 99
lepugaso: refused 8: there is no entry 99, the file has 20, counted from 0
[1]
$ lepugaso site member limits.layout 4 32 1 factory.bin site.bin
lepugaso: refused 21: S4 has 5 members, and mask 32 has bits beyond them
[1]
$ lepugaso site member limits.layout 4 31 5 factory.bin site.bin
lepugaso: refused 11: member 5, but S4 has members 0 to 4
[1]
$ lepugaso site member limits.layout 4 31 1 factory.bin /dev/null
lepugaso: refused 15: the factory buffer has 48 bytes and the site buffer 0, and S4 takes 48
[1]
$ lepugaso site set limits.layout 4 31 1 [3] 1 factory.bin site.bin
lepugaso: refused 12 at step 0: index 3, but a vec3<f32> has 3
[1]
$ lepugaso site set limits.layout 4 31 1 . 1 factory.bin site.bin
lepugaso: refused 14: the path leads to vec3<f32>, which is no single scalar
[1]
$ lepugaso site set limits.layout 4 31 0 . -1 factory.bin site.bin
lepugaso: refused 25: -1 is outside the numbers of type u32
[1]
$ lepugaso site clear limits.layout 4 31 5
lepugaso: refused 11: member 5, but S4 has members 0 to 4
[1]
$ lepugaso site clear limits.layout 4 18446744073709551616 5
lepugaso: 18446744073709551616 is too large for a mask, which is at most 18446744073709551615
usage: lepugaso site fresh FILE ENTRY FACTORY SITE
       lepugaso site inheriting FILE ENTRY
       lepugaso site member FILE ENTRY MASK MEMBER FACTORY SITE
       lepugaso site set FILE ENTRY MASK MEMBER PATH VALUE FACTORY SITE
       lepugaso site clear FILE ENTRY MASK MEMBER
[2]
$ lepugaso site fresh limits.layout 4 limits.layout
lepugaso: site fresh takes 4 arguments
usage: lepugaso site fresh FILE ENTRY FACTORY SITE
       lepugaso site inheriting FILE ENTRY
       lepugaso site member FILE ENTRY MASK MEMBER FACTORY SITE
       lepugaso site set FILE ENTRY MASK MEMBER PATH VALUE FACTORY SITE
       lepugaso site clear FILE ENTRY MASK MEMBER
[2]
$ lepugaso site
lepugaso: fresh, inheriting, member, set or clear?
usage: lepugaso site fresh FILE ENTRY FACTORY SITE
       lepugaso site inheriting FILE ENTRY
       lepugaso site member FILE ENTRY MASK MEMBER FACTORY SITE
       lepugaso site set FILE ENTRY MASK MEMBER PATH VALUE FACTORY SITE
       lepugaso site clear FILE ENTRY MASK MEMBER
[2]
$ lepugaso site fresh limits.layout 4 factory.bin -
lepugaso: standard input is no site block to be written
usage: lepugaso site fresh FILE ENTRY FACTORY SITE
       lepugaso site inheriting FILE ENTRY
       lepugaso site member FILE ENTRY MASK MEMBER FACTORY SITE
       lepugaso site set FILE ENTRY MASK MEMBER PATH VALUE FACTORY SITE
       lepugaso site clear FILE ENTRY MASK MEMBER
[2]
$ lepugaso site set limits.layout 4 31 2 . 1 factory.bin -
lepugaso: standard input is no site block to be written
usage: lepugaso site fresh FILE ENTRY FACTORY SITE
       lepugaso site inheriting FILE ENTRY
       lepugaso site member FILE ENTRY MASK MEMBER FACTORY SITE
       lepugaso site set FILE ENTRY MASK MEMBER PATH VALUE FACTORY SITE
       lepugaso site clear FILE ENTRY MASK MEMBER
[2]
$ lepugaso site stale
lepugaso: there is no site stale
usage: lepugaso site fresh FILE ENTRY FACTORY SITE
       lepugaso site inheriting FILE ENTRY
       lepugaso site member FILE ENTRY MASK MEMBER FACTORY SITE
       lepugaso site set FILE ENTRY MASK MEMBER PATH VALUE FACTORY SITE
       lepugaso site clear FILE ENTRY MASK MEMBER
[2]
$ lepugaso site --help
usage: lepugaso site fresh FILE ENTRY FACTORY SITE
       lepugaso site inheriting FILE ENTRY
       lepugaso site member FILE ENTRY MASK MEMBER FACTORY SITE
       lepugaso site set FILE ENTRY MASK MEMBER PATH VALUE FACTORY SITE
       lepugaso site clear FILE ENTRY MASK MEMBER

A factory sheet and a site block of one struct. MASK says which members are the site's own: bit k is member k. fresh makes SITE a
copy of FACTORY, inheriting an empty block; member shows a member as the block has it; set stores VALUE at PATH in MEMBER, in SITE;
clear gives the member back to the factory. All but member write the new mask.

-o OUT writes to OUT what would go to standard output: all of it or nothing.
