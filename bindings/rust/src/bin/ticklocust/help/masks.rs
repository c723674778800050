//! Masks.

pub const GROW: &str = "\
usage: ticklocust grow --rings M MASK OUT [--level K]

Writes the mask of the cells at most M touching steps from a marked cell, across every edge of an
octant (docs/RULES.md, 6). M is 0 to 64. The level follows from the mask's length. - is standard
input or output.

  $ printf '0\\n' | ticklocust mask mark --level 5 cloud
  $ ticklocust grow --rings 1 cloud grown
  $ ticklocust count grown
  13
";

pub const SHRINK: &str = "\
usage: ticklocust shrink --rings M MASK OUT [--level K]

Writes the mask of the cells from which every cell within M touching steps is marked
(docs/RULES.md, 6). M is 0 to 64. The level follows from the mask's length. - is standard input or
output.

  $ printf '0\\n' | ticklocust mask mark --level 5 - | ticklocust grow --rings 2 - grown
  $ ticklocust shrink --rings 2 grown shrunk
  $ ticklocust mask list shrunk
  0
";

pub const JOIN: &str = "\
usage: ticklocust join A B OUT [--level K]

Writes the mask of the cells that are marked in A or in B. The level follows from the length of A.
- is standard input, for one of the two, or output.

  $ printf '0\\n5\\n' | ticklocust mask mark --level 0 a
  $ printf '5\\n7\\n' | ticklocust mask mark --level 0 b
  $ ticklocust join a b - | ticklocust mask list -
  0
  5
  7
";

pub const COUNT: &str = "\
usage: ticklocust count MASK [--level K]

Prints how many cells are marked. The level follows from the mask's length. - is standard input.

  $ printf '0\\n5\\n' | ticklocust mask mark --level 0 - | ticklocust count -
  2
";

pub const WITHIN: &str = "\
usage: ticklocust within A B [--level K]

Prints 'yes' if every cell that is marked in A is marked in B; otherwise 'no' and the lowest cell
that is marked in A and not in B. The status is 0 for yes, 1 for no, and more for anything else.
The level follows from the length of A. - is standard input, for one of the two.

  $ printf '0\\n5\\n' | ticklocust mask mark --level 0 a
  $ printf '5\\n' | ticklocust mask mark --level 0 b
  $ ticklocust within b a
  yes
  $ ticklocust within a b || echo \"status $?\"
  no 0
  status 1
";

pub const FILL: &str = "\
usage: ticklocust fill --outside CELL BORDER OUT [--level K]

Writes the mask of the cells that the outside cell can't reach by direct steps through unmarked
cells: what the border encloses, and the border (docs/RULES.md, 6). BORDER is a mask ('border mask'
makes one of a stored border). The level follows from its length. - is standard input or output.

  $ printf '1\\n3\\n4\\n' | ticklocust mask mark --level 0 border
  $ ticklocust fill --outside 6 border filled
  $ ticklocust mask list filled
  0
  1
  3
  4
";
