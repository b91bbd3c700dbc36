//! What `--help` prints.

pub const EXOSLOG: &str = "\
exoslog: logs of EXOS calls in words, as pictures, and their listings compared;
modules in words

usage: exoslog COMMAND [ARGUMENT...]

commands:
  encode      words to event records
  decode      event records to words
  map         the RAM after a log, or at one of its records, as a picture
  diff        two listings: the first record that differs
  audit-log   a log and a board's listing to a maker's log, for exos-audit
  module      items in words to a module, and a module to words

exoslog COMMAND --help tells more of a command; exoslog --version tells the
version. No FILE, or -, is standard input. In this repository a log in words is
NAME.words, one of event records NAME.log, and a maker's log, whose events are
followed by their replies, NAME.maker. A log whose second record is a reply is
taken for a maker's log.

exit status: 0 done (diff: the same), 1 the input is not right (diff: they
differ), 2 a wrong use, or a file that cannot be read or written. module --with
has more: those of the program that it runs.
";

pub const ENCODE: &str = "\
exoslog encode: a log in words to event records

usage: exoslog encode [FILE] [-o OUT]

  -o, --output OUT   write to OUT (- is standard output, a terminal too)

exoslog encode audit.words -o audit.log makes what exos-list audit.log lists.
One record a line; # begins a comment; blank lines are skipped. Numbers are
decimal, or hex with 0x.

  start R SEGMENT...                 allocate CALLER
  reset bits BIT...                  free CALLER SEGMENT
  open CHANNEL STATUS N NAME         user store SEGMENT OFFSET DATA
  close CHANNEL                      user load SEGMENT OFFSET LENGTH
  read CHANNEL OFFSET LENGTH         default UNIT NAME
  write CHANNEL OFFSET DATA          link M NAME
  status                             set user boundary OFFSET
  boundary                           load module SEGMENT PAGE OFFSET ITEM...

  reply ANSWER A B [DATA]            in a maker's log, behind its event; DATA
                                     has B bytes

  CALLER  user, device, or a number
  NAME    in double quotes; \\\\ and \\\" and \\xHH for any byte
  DATA    pairs of hex digits, blanks between pairs or none; or as a NAME
  ITEM    bytes DATA, word HHHH, page P, restore, move HHHH and, last, end;
          HHHH is four hex digits, P 0 to 3. rest DATA behind end is what
          follows. A module that is not whole has illegal or nothing in the
          place of end, and rest DATA is what follows: where the items end
          within a byte, the first byte of DATA has the bits left of it.
  reset also takes the flags as one number: reset 0x50 is reset bits 4 6

  kind K DATA   a record of any kind and body
  raw BYTES     bytes in hex as they are: a bad length or a cut record

Mistakes are told as FILE:LINE:COLUMN, every line's first; then nothing is
written and the exit status is 1.
";

pub const DECODE: &str = "\
exoslog decode: event records to a log in words

usage: exoslog decode [--reply N] [FILE] [-o OUT]

  --reply N          of a maker's log, the event and the reply one of which
                     exos-audit counts N, and their record's number
  -o, --output OUT   write to OUT (- is standard output)

One record a line, so line k is record k. Any bytes can be decoded, and encode
gives exactly these bytes back: a record of an unknown kind or a wrong body is a
line kind, a bad length or a cut record, with all that follows, a line raw. A
comment says what is wrong. exoslog encode --help tells the words.

In a maker's log a reply stands below its event, set in, with its answer's name.
exos-audit counts events and replies together from 0: line n is what it counts
n - 1. A line # N cut stands before the first record that is cut, ill-sized,
missing or misplaced, and says why; an audit goes no further.
";

pub const MAP: &str = "\
exoslog map: the RAM after a log, as a picture

usage: exoslog map [--at K | --reply N] [--svg OUT | --text] [--from FORM] [LOG]

  --at K        after record K; 0 is before any (default: after the last)
  --reply N     of a maker's log, before the record with the event or the reply
                that exos-audit counts N: the RAM in which the event was asked
  --svg OUT     an SVG drawing to OUT (- is standard output)
  --text        plain text, 80 columns, on standard output (the default)
  --from FORM   what LOG is: words or records (default: found from its bytes)

The log is replayed as the listing program runs it: at most four segments are
lent, a bad record ends it. The picture has the segments in list order with
their classes and places in the chain, R, the EXOS and the user boundary, and
the line's records by channel, exact to the byte. The replay is by the Rust
kernel, of which nothing is proved: what the proved kernel answers is listed by
exos-list.

Behind the answer to a close or a link that is done stands how many bytes of
records it moved. Without --at and --reply a line more tells how many the log's
closes and links moved in all, the most that one moved, and the first that did;
where no close or link is done there is no such line.

In a maker's log a record is an event and its reply, so K is still a line of the
listing. Its events are replayed, up to the first record that is cut, ill-sized,
missing or misplaced; below the answer stands the log's reply and, where only
bytes differ, the first that does. An audit lends 4090 bytes of output, and a
listing 4096: a read or a user load of more is answered 13 RANGE.
";

pub const DIFF: &str = "\
exoslog diff: two listings, the first record that differs

usage: exoslog diff [--from FORM] LISTING1 LISTING2 [LOG]

  --from FORM   what LOG is: words or records (default: found from its bytes)

Prints nothing where the listings are the same. Else tells the first record
whose values differ: its number, the record in words if LOG is given, both
lines, and which fields differ, the value of LISTING1 first; where one has a
read done and the other refuses it with 13 RANGE, order 2's sentence on that.
What is not in 01's form but has the values (line ends, zeros before a number,
capitals in hex) is noted above that, the first of each sort. Of a maker's LOG
the events count, and a record has the numbers of its event and its reply too.
One of the files may be -, standard input.

exit status: 0 the same byte by byte, 1 they differ, 2 trouble.
";

pub const AUDIT_LOG: &str = "\
exoslog audit-log: a log and a board's listing to a maker's log

usage: exoslog audit-log [--from FORM] LOG LISTING [-o OUT]

  --from FORM        what LOG is: words or records (default: found from its
                     bytes)
  -o, --output OUT   write to OUT (- is standard output, a terminal too)

exoslog audit-log audit.words maker.list -o audit.maker makes what exos-audit
audit.maker judges: each event of LOG, and behind it a reply with what its line
of LISTING says. Any numbers that fit a reply are taken, since a board may be
wrong: answer and a 0 to 255, b 0 to 65535. Line ends, zeros before a number and
capitals in hex are read as diff reads them. One of the files may be -, standard
input.

No log is made, and each line is told as LISTING:LINE, where
  there are more lines than records, or fewer
  a line is of another kind than its record, is bad, or is no line of a listing
  a number fits no field of a reply
  there are bytes where none belong (6, 20 and 258 have them, answered 0 with b
  above 0), none where they belong, or another number of them than b
  there are more than 4090 bytes: a reply has no room for them, and an audit,
  which lends 4090 where a listing lends 4096, answers 13 RANGE
  the record is cut, has a bad length, or is of kind 512, a reply's

exit status: 0 done, 1 no log is made, 2 a wrong use, or a file that cannot be
read or written.
";

pub const MODULE: &str = "\
exoslog module: items in words to a module, and a module to words

usage: exoslog module [--with PROGRAM] [FILE] [-o OUT]
       exoslog module --decode [FILE] [-o OUT]

  --with PROGRAM     have PROGRAM, as ./exos-module, make the module
  --decode           a module to words
  -o, --output OUT   write to OUT (- is standard output, a terminal too)

Without --with or --decode the output is what exos-module reads: the start page
in a byte, the start offset in two, and three bytes an item. Both of these make
boot.module:

  exoslog module boot.words | ./exos-module > boot.module
  exoslog module --with ./exos-module boot.words -o boot.module

Words stand one item a line or several; # begins a comment; blank lines are
skipped. Numbers are decimal, or hex with 0x.

  start PAGE OFFSET   may stand first, a line of its own; without it 0 0
  bytes DATA          an item a byte
  word HHHH           a word
  page P              sets the page
  restore             restores the page
  move HHHH           moves the counter: move ffff goes back by 1
  end                 may stand last: the program adds the end item anyway

  DATA  pairs of hex digits, blanks between pairs or none; or in double quotes,
        with \\\\ and \\\" and \\xHH for any byte
  HHHH  four hex digits

exoslog refuses what is not in these words, what the three bytes cannot hold (a
PAGE above 255, an OFFSET or P above 65535) and more than 104857 items. Mistakes
are told as FILE:LINE:COLUMN, every line's first; then nothing is written.
PROGRAM refuses with 20 PAGE a start page above 3, a start offset above 16384, a
P above 3, and a store or a move outside the page; with 13 RANGE a module of
more than 65536 bytes. exoslog adds where and why, by its own reading.

--decode prints an item or a run of bytes a line, without a start, which a
module does not tell. Bytes behind the end item are told in a comment. Of what
is no whole module the first item at fault is told, with the byte, from 0, and
the bit, 7 to 0, and nothing is written.

exit status: 0 done, 1 the input is not right, 2 a wrong use, a file that cannot
be read or written, a PROGRAM that cannot be run, or one that is done and did
not give the module of the items; else that of PROGRAM (20 PAGE, 13 RANGE), and
128 and the signal's number where a signal ended it.
";
