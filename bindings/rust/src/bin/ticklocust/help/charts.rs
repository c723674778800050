//! Charts.

pub const CHART: &str = "\
usage: ticklocust chart new --level K --date DATE CHART
       ticklocust chart import --date DATE TEMPERATURES AGES CHART
       ticklocust chart export CHART TEMPERATURES AGES
       ticklocust chart info CHART
       ticklocust chart list CHART

'ticklocust help chart new' and so on describe each; 'ticklocust help files' documents the file.
";

pub const NEW: &str = "\
usage: ticklocust chart new --level K --date DATE CHART

Writes a chart in which every cell is a gap, as of DATE (YYYY-MM-DD): its first day is the day
after. The level is 0 to 8. A file that is there already is not replaced.

  $ ticklocust chart new --level 2 --date 2026-03-08 sea.chart
  $ ticklocust chart info sea.chart
  date 2026-03-08
  level 2
  fresh 0
  carried 0
  gap 128
";

pub const IMPORT: &str = "\
usage: ticklocust chart import --date DATE TEMPERATURES AGES CHART [--level K]

Writes a chart from two plain arrays ('ticklocust help files'), which are as of DATE (YYYY-MM-DD).
The level follows from the length of AGES. A file that is there already is not replaced. - is
standard input, for one of the two.

  $ printf '\\0\\0\\200A%.0s' 0 1 2 3 4 5 6 7 >temperatures   # 16.0 in each of eight cells
  $ printf '\\0\\1\\2\\36\\37\\0\\0\\377' >ages
  $ ticklocust chart import --date 2026-03-08 temperatures ages sea.chart
  $ ticklocust reading 2 sea.chart
  carried 16.0 °C, 2 days, chart of 2026-03-08
";

pub const EXPORT: &str = "\
usage: ticklocust chart export CHART TEMPERATURES AGES

Writes a chart's two plain arrays ('ticklocust help files'). The date is not in them: see 'chart
info'. The two files are renamed one right after the other; if the second rename fails, the first
file is new. - is standard input, or output for one of the two.

  $ ticklocust chart new --level 0 --date 2026-03-08 sea.chart
  $ ticklocust chart export sea.chart temperatures ages
  $ wc -c <temperatures
  32
  $ wc -c <ages
  8
";

pub const INFO: &str = "\
usage: ticklocust chart info CHART

Prints the date of a chart's last day, its level, and how many cells are fresh, carried and gaps as
of that date (docs/RULES.md, 7). Then 'carried-days D N' for each number of days D: N cells were
last seen D days before. - is standard input.

  $ printf '\\0\\0\\200A%.0s' 0 1 2 3 4 5 6 7 >temperatures   # 16.0 in each of eight cells
  $ printf '\\0\\1\\1\\36\\37\\0\\0\\377' >ages
  $ ticklocust chart import --date 2026-03-08 temperatures ages sea.chart
  $ ticklocust chart info sea.chart
  date 2026-03-08
  level 0
  fresh 3
  carried 3
  gap 2
  carried-days 1 2
  carried-days 30 1
";

pub const LIST: &str = "\
usage: ticklocust chart list CHART

Prints every cell of a chart, one a line after a header line, with tabs between: cell, latitude and
longitude of its centre in degrees, kind, temperature in degrees Celsius, days. A gap has neither
temperature nor days. - is standard input.

  $ printf '\\0\\0\\200A%.0s' 0 1 2 3 4 5 6 7 >temperatures   # 16.0 in each of eight cells
  $ printf '\\0\\1\\1\\36\\37\\0\\0\\377' >ages
  $ ticklocust chart import --date 2026-03-08 temperatures ages sea.chart
  $ ticklocust chart list sea.chart | tr '\\t' ' ' | sed 4,6d
  cell latitude longitude kind temperature days
  0 30.000000 45.000000 fresh 16.0 0
  1 30.000000 135.000000 carried 16.0 1
  5 -30.000000 135.000000 fresh 16.0 0
  6 -30.000000 -135.000000 fresh 16.0 0
  7 -30.000000 -45.000000 gap  
";

pub const READING: &str = "\
usage: ticklocust reading CELL CHART

Prints what a chart says about a cell as of its date: 'fresh' or 'carried' with the temperature
and, if carried, its days; or 'gap' (docs/RULES.md, 7). - is standard input.

  $ ticklocust chart new --level 0 --date 2026-03-08 sea.chart
  $ printf '\\0\\0\\200A%.0s' 0 1 2 3 4 5 6 7 >news           # 16.0 in each of eight cells
  $ printf '0\\n' | ticklocust mask mark --level 0 cloud
  $ ticklocust day --rings 0 --limit 30 --date 2026-03-09 news cloud sea.chart
  2026-03-09: fresh 7, coldest 16.0 °C, warmest 16.0 °C
  $ ticklocust reading 0 sea.chart
  gap, chart of 2026-03-09
  $ ticklocust reading 1 sea.chart
  fresh 16.0 °C, chart of 2026-03-09
";
