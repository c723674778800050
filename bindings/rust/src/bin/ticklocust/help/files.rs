//! The formats of files.

pub const FILES: &str = "\
Numbers of more than one byte have the low byte first.

A mask of level 0 to 8 is 4^level bytes. Cell c is bit c mod 8, low bit first, of byte c / 8.

Temperatures are 8 x 4^level floats of 4 bytes, in degrees Celsius. A value outside -5.0 to 45.0,
or NaN, is no temperature: use NaN where nothing was seen.

Ages are 8 x 4^level bytes: 0 is fresh, 1 to 30 are days since the temperature was seen, more is a
gap.

A chart is one file. With n = 8 x 4^level cells it has 5n + 36 bytes:
  offset   bytes   what
  0        8       TICKLCST
  8        4       the version of this format, 1
  12       4       the level, 0 to 8
  16       16      the date of the last day, YYYY-MM-DD, then zeros
  32       4n      the temperatures
  32 + 4n  n       the ages
  32 + 5n  4       CRC-32 (IEEE 802.3, as zlib.crc32) of all bytes before
Whenever a chart is read, all of this is checked. In Python, with n cells:
  temperatures = numpy.fromfile(name, '<f4', count=n, offset=32)
  ages = numpy.fromfile(name, 'u1', count=n, offset=32 + 4 * n)
'ticklocust chart export' checks the file and writes the same two arrays as files.

A stored border has at most 1544 bytes (docs/RULES.md, 8).

  $ ticklocust chart new --level 0 --date 2026-03-08 sea.chart
  $ wc -c <sea.chart
  76
  $ head -c 8 sea.chart
  TICKLCST
  $ python3 -c \"import zlib; b = open('sea.chart', 'rb').read(); print(zlib.crc32(b[:-4]) == int.from_bytes(b[-4:], 'little'))\"
  True
";
