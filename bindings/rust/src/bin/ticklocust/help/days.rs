//! `day`.

pub const DAY: &str = "\
usage: ticklocust day --rings M --limit D --date DATE NEWS CLOUD CHART [OPTIONS]
       ticklocust day --rings M --limit D FOLDER CHART [OPTIONS]

Takes a chart through a day, or through a folder of days. CLOUD is grown by M rings, 0 to 64: give
the distance to which a cloud's edge can't be trusted, and 0 only if the mask is grown already. A
cell that is then unmarked and whose temperature in NEWS is in range, -5.0 to 45.0 degrees Celsius,
is fresh. Any other is carried for one more day, up to D days, 0 to 30, and is a gap from then on.
Prints a line for each day: how many cells are fresh, the coldest and the warmest of them.

DATE is YYYY-MM-DD and has to be the day after the chart's. A day that is in the chart already is
refused, so a run may be repeated after any failure. A date that skips days is refused too; with
--missing cloud each missing day is run as all cloud, and has its line.

FOLDER has two files for each day, DATE.temperatures and DATE.cloud, and nothing else. The last
line printed is the rate of the run.

The chart is replaced after the last day by one rename. If a day is refused, a file can't be read
or the lines can't be printed, it stays as it was. During a run the chart is locked: a second run
says that it is in use. The rules of a day: docs/RULES.md, 7; of growing: 6.

  --missing cloud   run missing days as all cloud
  --to OTHER        write the new chart to OTHER and leave CHART

NEWS or CLOUD may be -, standard input.

  $ ticklocust chart new --level 0 --date 2026-03-08 sea.chart
  $ printf '\\0\\0\\200A%.0s' 0 1 2 3 4 5 6 7 >news           # 16.0 in each of eight cells
  $ printf '' | ticklocust mask mark --level 0 clear
  $ ticklocust day --rings 1 --limit 30 --date 2026-03-09 news clear sea.chart
  2026-03-09: fresh 8, coldest 16.0 °C, warmest 16.0 °C
  $ mkdir days && cp news days/2026-03-12.temperatures
  $ printf '0\\n' | ticklocust mask mark --level 0 days/2026-03-12.cloud
  $ ticklocust day --rings 1 --limit 30 days sea.chart || echo \"status $?\"
  ticklocust: sea.chart: 2 days are missing between 2026-03-09 and 2026-03-12: nothing is changed. Run what is missing first, or as all cloud with --missing cloud
  status 4
  $ ticklocust day --rings 1 --limit 30 --missing cloud days sea.chart | grep -v rate
  2026-03-10: missing, run as all cloud, fresh 0
  2026-03-11: missing, run as all cloud, fresh 0
  2026-03-12: fresh 1, coldest 16.0 °C, warmest 16.0 °C
  $ ticklocust reading 0 sea.chart
  carried 16.0 °C, 3 days, chart of 2026-03-12
";
