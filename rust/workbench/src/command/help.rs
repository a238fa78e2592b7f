//! What `timing --help` prints.

pub const ALL: &str = "\
timing: checks and runs the sheets of timing networks, as text or as bytes

  timing assemble CARD.net -o CARD.sheet   a text becomes a sheet
  timing show CARD.sheet                   a sheet becomes a text
  timing check FILE..                      is it accepted?
  timing run FILE.. --horizon N            the listing, a dump, a diagram
  timing pulses FILE --horizon N --width W pulses shorter than a width
  timing convert FILE --to 2 -o OUT        the sheet in the other edition
  timing load FILE --seed S --count N -o OUT   the sheet with a drawn drive
  timing import FILE.bench                 an ISCAS netlist becomes a text

A FILE that begins with timing-1 or timing-2 is a text; anything else is a
sheet, of the first edition unless --edition 2 is given. - is standard input.
Exit status: 0 finished, 1 refused, 2 wrong use or a failed read or write.
timing PART --help says more of each part.

Example:
  timing run examples/worked.net --horizon 12 --svg worked.svg
";
