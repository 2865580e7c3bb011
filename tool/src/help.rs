//! What `--help` prints.

use crate::commands::COMMANDS;

pub fn overview() -> String {
    let mut text = String::from(
        "yard: draw, check and read maps of a coil yard\n\n\
         usage: yard COMMAND [OPTIONS] ARGUMENTS\n\n",
    );
    for command in COMMANDS {
        text += &format!("  {:<8} {}\n", command.name, command.summary);
    }
    text + "\n\
        yard COMMAND --help says more, with an example; yard --version prints the\n\
        version. A file named - is standard input, or behind -o standard output.\n\
        Status: 0 good; 1 refused, or no route; 2 wrong usage, or a file that cannot be\n\
        read or written.\n"
}

pub const CHECK: &str = "\
usage: yard check [--json] MAP…

Checks each map whole. Of a good one it prints the numbers of stations, pages
and moves and how full the fullest page is. Of a bad one it prints the
refusal's number and meaning, its place, what is wrong there, and the bytes,
those at fault marked by >.

  --json   print a list with an object for each map

example: yard check examples/maps/m7.map
";

pub const SHOW: &str = "\
usage: yard show MAP

Prints the map as text, in its normal form: the numbers of stations and pages,
a line for each station with its page and, under it, a line for each of its
moves with its time in tenths of a second and its limit in decimetres, if it
has one. What is wrong with a bad map goes to standard error.

example: yard show examples/maps/m7.map >m7.txt
";

pub const MAKE: &str = "\
usage: yard make TEXT -o MAP

Writes the map that a text describes. The text has, in any order, lines

  station NUMBER page NUMBER
  station NUMBER
  move STATION to STATION time TENTHS
  move STATION to STATION time TENTHS limit DECIMETRES

and, if wanted, 'stations NUMBER' and 'pages NUMBER'; # begins a comment. If
no station has a page, the pages are filled in the order of the stations.
Mistakes go to standard error with their lines, and nothing is written.

  -o MAP   the file to write, which is replaced as a whole; - for standard
           output

example: yard make m7.txt -o m7.map
";

pub const ROUTE: &str = "\
usage: yard route MAP FROM TO [--length DM] [--json]

Prints the way of least time, and of as much time that of fewest moves, with
the time up to each station, the total, the number of moves and how many pages
the search fetched; or 'no route'; or why the search is refused.

  --length DM   for a strip of so many decimetres: moves with a lower limit are
                closed to it. Without a length all moves are open.
  --json        print an object; times are in tenths of a second

example: yard route examples/maps/m7.map 0 6
";

pub const TIMES: &str = "\
usage: yard times MAP FROM [--length DM] [--json]

Prints for each station its page, the least time to it in tenths of a second,
the number of moves and the station before it on the way; - where no way leads.

  --length DM   for a strip of so many decimetres: moves with a lower limit are
                closed to it. Without a length all moves are open.
  --json        print an object; times are in tenths of a second

example: yard times examples/maps/m7.map 0 --length 8120
";

pub const LISTS: &str = "\
usage: yard lists MAP FROM [--length DM] [--frames F] [--json]

Prints the page lists of Dijkstra's search and of ours, with the entries that
ours leaves out in brackets (where several could be meant, each entry that
stays is the first that fits); how many entries and one-page reads they have;
and for each page how often it is listed, and its entry stations.

  --length DM   for a strip of so many decimetres: moves with a lower limit are
                closed to it. Without a length all moves are open.
  --frames F    also the reads of a store of F frames, 1 to 64, of which the
                least recently used page leaves
  --json        print an object

example: yard lists examples/maps/m7.map 0 --frames 2
";

pub const ORDER: &str = "\
usage: yard order MAP…

Prints the names of the maps in their order: by number of stations, then by
their moves, each by from, target, time and limit. Maps that have as many
stations and the same moves, on whatever pages, stand on one line with ' = '
between them. What is wrong with a bad map goes to standard error.

example: yard order drafts/*.map
";

pub const RECORDS: &str = "\
usage: yard records make CSV [-o FILE]
       yard records show FILE

Makes coil records, of 8 bytes each, from lines 'coil,length,station', or
prints records as such lines. Lengths are in decimetres. In the text, # begins
a comment, and a first line 'coil,length,station' is passed over.

  -o FILE   the file to write, which is replaced as a whole; without it
            standard output

example: yard records make coils.csv | coils
";

pub const DOT: &str = "\
usage: yard dot MAP [--from STATION] [--length DM]

Prints the map as text for Graphviz: pages as boxes with their stations, moves
with their times in tenths of a second and their limits.

  --from STATION   search from there: the moves by which stations are reached
                   are drawn bold, each station has its time, and each page its
                   places in the page list
  --length DM      for a strip of so many decimetres: moves with a lower limit
                   are drawn dashed, and no search uses them

example: yard dot examples/maps/m7.map --from 0 | dot -Tsvg >m7.svg
";
