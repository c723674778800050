//! Borders.

pub const BORDER: &str = "\
usage: ticklocust border read STORED [TEXT]
       ticklocust border write TEXT STORED [--level K]
       ticklocust border mask STORED OUT

'ticklocust help border read' and so on describe each. The stored form: docs/RULES.md, 8.
";

pub const READ: &str = "\
usage: ticklocust border read STORED [TEXT]

Reads a stored border (docs/RULES.md, 8) and writes it as text: 'level K', then its cells, one a
line. Without TEXT it goes to standard output. - is standard input or output.

  $ printf '\\4\\0\\2\\13' | ticklocust border read -
  level 4
  0
  13
  3
";

pub const WRITE: &str = "\
usage: ticklocust border write TEXT STORED [--level K]

Writes a border in its stored form (docs/RULES.md, 8). TEXT is as 'border read' writes it: 'level
K', then the cells, one a line, each one step from the one before; at most 4097. --level replaces
that first line. - is standard input or output.

  $ printf 'level 4\\n0\\n13\\n3\\n' | ticklocust border write - island.border
  $ wc -c <island.border
  4
  $ printf 'level 4\\n0\\n200\\n' | ticklocust border write - wrong.border || echo \"status $?\"
  refused 7: there is no such step: no code joins 0 and 200 (line 3)
  status 3
";

pub const MASK: &str = "\
usage: ticklocust border mask STORED OUT

Writes the mask of a stored border's cells. The level is that of the border, 0 to 8. - is standard
input or output.

  $ printf '\\4\\0\\2\\13' | ticklocust border mask - - | ticklocust mask list -
  0
  3
  13
";
