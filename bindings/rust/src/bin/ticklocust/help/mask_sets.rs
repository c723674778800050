//! `mask ...`.

pub const MASK: &str = "\
usage: ticklocust mask mark --level K OUT
       ticklocust mask list MASK
       ticklocust mask and A B OUT
       ticklocust mask minus A B OUT
       ticklocust mask not MASK OUT

'ticklocust help mask mark' and so on describe each.
";

pub const MARK: &str = "\
usage: ticklocust mask mark --level K OUT

Writes a mask in which the cells on standard input are marked, one cell a line. The level is 0 to
8. - is standard output.

  $ printf '0\\n5\\n' | ticklocust mask mark --level 0 some.mask
  $ ticklocust mask list some.mask
  0
  5
";

pub const LIST: &str = "\
usage: ticklocust mask list MASK [--level K]

Prints the marked cells, one a line, in ascending order. The level follows from the mask's length.
- is standard input.

  $ printf '\\41' | ticklocust mask list -
  0
  5
";

pub const AND: &str = "\
usage: ticklocust mask and A B OUT [--level K]

Writes the mask of the cells that are marked in A and in B. The level follows from the length of A.
- is standard input, for one of the two, or output.

  $ printf '0\\n5\\n' | ticklocust mask mark --level 0 a
  $ printf '5\\n7\\n' | ticklocust mask mark --level 0 b
  $ ticklocust mask and a b - | ticklocust mask list -
  5
";

pub const MINUS: &str = "\
usage: ticklocust mask minus A B OUT [--level K]

Writes the mask of the cells that are marked in A and not in B. The level follows from the length
of A. - is standard input, for one of the two, or output.

  $ printf '0\\n5\\n' | ticklocust mask mark --level 0 a
  $ printf '5\\n7\\n' | ticklocust mask mark --level 0 b
  $ ticklocust mask minus a b - | ticklocust mask list -
  0
";

pub const NOT: &str = "\
usage: ticklocust mask not MASK OUT [--level K]

Writes the mask of the cells that are not marked. The level follows from the mask's length. - is
standard input or output.

  $ printf '0\\n5\\n' | ticklocust mask mark --level 2 some.mask
  $ ticklocust mask not some.mask - | ticklocust count -
  126
";
