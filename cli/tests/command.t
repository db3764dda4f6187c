## The command itself.
$ lepugaso
lepugaso: which command?
usage: lepugaso COMMAND ..., where lepugaso --help lists the commands
[2]
$ lepugaso frost
lepugaso: there is no command frost
usage: lepugaso COMMAND ..., where lepugaso --help lists the commands
[2]
$ lepugaso --help
Lays out, fills and reads the buffers that WGSL shaders share with a host.

    lepugaso check FILE
    lepugaso list FILE
    lepugaso map FILE [ENTRY] [--json | --svg OUT]
    lepugaso read FILE ENTRY [BUFFER]
    lepugaso write FILE ENTRY [LINES]
    lepugaso get FILE ENTRY PATH [BUFFER]
    lepugaso set FILE ENTRY PATH VALUE BUFFER
    lepugaso bits FILE ENTRY PATH OFFSET COUNT BUFFER [VALUE]
    lepugaso bits i32|u32 NUMBER OFFSET COUNT [VALUE]
    lepugaso uniform FILE ENTRY
    lepugaso clean FILE ENTRY BUFFER
    lepugaso order FILE ENTRY [POSITION...]
    lepugaso form FILE 1|2
    lepugaso site fresh FILE ENTRY FACTORY SITE
    lepugaso site inheriting FILE ENTRY
    lepugaso site member FILE ENTRY MASK MEMBER FACTORY SITE
    lepugaso site set FILE ENTRY MASK MEMBER PATH VALUE FACTORY SITE
    lepugaso site clear FILE ENTRY MASK MEMBER
    lepugaso convert KIND VALUE KIND
    lepugaso rank FILE FROM TO
    lepugaso common FILE ENTRY...
    lepugaso pack [LINES]
    lepugaso unpack FILE

lepugaso COMMAND --help says more of each, lepugaso(1) all. FILE is a layout file, ENTRY a number of its types from 0, PATH
as .1[2]: member 1, then index 2. Status: 0; 1, refused, or a file that cannot be had; 2, wrong usage. Version 1.0.0.
$ lepugaso --version
lepugaso 1.0.0
$ lepugaso help set
usage: lepugaso set FILE ENTRY PATH VALUE BUFFER

Stores VALUE in the scalar at PATH, in place. No other byte changes.

-o OUT writes to OUT what would go to standard output: all of it or nothing.
