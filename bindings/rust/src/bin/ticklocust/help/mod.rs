//! What `help` says. Every example, a line that begins with `$`, has below it what it prints; the
//! tests run them as printed.

pub mod borders;
pub mod charts;
pub mod days;
pub mod files;
pub mod mask_sets;
pub mod masks;
pub mod places;

pub const ALL: &str = "\
usage: ticklocust SUBCOMMAND ...

Cells of the globe
  cell           the cell at a position
  centre         the centre of a cell
  step           the cell that a code leads to
  code           the code that leads from one cell to another
  touching       the cells that touch a cell
  border read    a stored border as text
  border write   a border's text in its stored form
  border mask    a border's cells as a mask
Masks of cells
  grow           the cells within some rings of a mask (dilation)
  shrink         the cells whose rings are within a mask (erosion)
  join           the cells of either of two masks
  count          how many cells are marked
  within         whether one mask is within another
  fill           a border and what it encloses
  mask mark      a mask of the cells on standard input
  mask list      the marked cells of a mask
  mask and       the cells of both of two masks
  mask minus     the cells of one mask that are not in another
  mask not       the cells that are not in a mask
Charts of sea-surface temperatures, each with its age in days
  chart new      a chart of gaps
  chart import   a chart from plain arrays of temperatures and ages
  chart export   a chart's temperatures and ages as plain arrays
  chart info     a chart's date, its level, and how many cells are fresh, carried and gaps
  chart list     every cell of a chart, one a line
  day            one day of a chart, or a folder of days
  reading        what a chart says about a cell: fresh, carried or gap

'ticklocust help SUBCOMMAND' describes each, with an example. 'ticklocust help files' documents the
formats of files. 'ticklocust --version' prints the version. Pages cite the rules by the sections
of docs/RULES.md.

Files. A file is written under a temporary name in its folder, .ticklocust-*.part, and renamed
after everything is printed: it is written whole or not at all. SIGINT, SIGTERM and SIGHUP remove
temporary files; SIGKILL leaves one, which is safe to remove. No file that is read is written,
except the chart of 'day'. - is standard input or output; devices and pipes are written directly.

Status
  0    done; 'within': yes
  1    'within': no
  2    a wrong word, or a file that can't be read or written
  3    the call is refused; standard error has 'refused N: ...' with the number of the table in
       docs/RULES.md, 9
  4    the day doesn't follow the chart's date
  141  standard output is a broken pipe
With status 2, 3, 4 and 141 no file is changed; 'help chart export' has the one exception. A run
that was ended by a signal can be repeated: a day that is in the chart already is refused.
";
