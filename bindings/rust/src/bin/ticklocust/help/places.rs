//! Cells.

pub const CELL: &str = "\
usage: ticklocust cell --level K --latitude M --longitude M
       ticklocust cell --level K -

Prints the number of the cell at a position. The level is 0 to 14. A coordinate is degrees with a
decimal point, exact in millionths, or whole millionths of a degree without one: 30.0 is 30 degrees,
and 30 is 30 millionths. Both are written the same way. South and west are negative. The latitude is
-90.0 to 90.0, the longitude -180.0 to 179.999999.

With -, each line of standard input is a latitude and a longitude, and its cell is printed. The
rules: docs/RULES.md, 2.

  $ ticklocust cell --level 1 --latitude 22.5 --longitude 30.0
  0
  $ ticklocust cell --level 1 --latitude 22500000 --longitude 29999999
  2
  $ printf '22.5 30.0\\n-27.6 -89.7\\n' | ticklocust cell --level 1 -
  0
  30
";

pub const CENTRE: &str = "\
usage: ticklocust centre --level K CELL
       ticklocust centre --level K -

Prints the latitude and the longitude of a cell's centre, a line each, in millionths of a degree.
The level is 0 to 14.

With -, each line of standard input is a cell, and its centre is printed on one line, in the form
that 'cell' reads. The rules: docs/RULES.md, 3.

  $ ticklocust centre --level 1 2
  latitude 15000000
  longitude 18000000
  $ printf '2\\n28\\n' | ticklocust centre --level 1 -
  15000000 18000000
  -30000000 -45000000
";

pub const STEP: &str = "\
usage: ticklocust step --level K CELL CODE

Prints the cell that a code leads to. The codes are t l r e w T E W, or their numbers 0 to 7; T, E
and W cross the edge of an octant (docs/RULES.md, 4). The level is 0 to 14.

  $ ticklocust step --level 4 187 T
  1211
";

pub const CODE: &str = "\
usage: ticklocust code --level K FROM TO

Prints the number and the letter of the code that leads from one cell to another (docs/RULES.md,
4). The level is 0 to 14.

  $ ticklocust code --level 4 187 1211
  5 T
";

pub const TOUCHING: &str = "\
usage: ticklocust touching --level K CELL

Prints the cells that have a point in common with a cell, one a line, in ascending order: 6, 10 or
12 (docs/RULES.md, 5). The level is 0 to 14.

  $ ticklocust touching --level 0 0
  1
  2
  3
  4
  5
  7
";
