//! `balkwizu commission`: the checklist that a field engineer goes through before a line is
//! put into service.

use std::ffi::OsString;

use line::commission;
use line::kernels::boundary::PROVED_RUNS;

pub const HELP: &str = "\
balkwizu commission FILE [OPTION]..
balkwizu commission FILE --answers A --left T [OPTION]..

Goes through the checklist with the table and the list of FILE before a line is
put into service: on this computer, by the archive in this program, or on words
that were read back from a controller, and then nothing is run here.

  check 1  refusals: damaged variants of the table, lists scrambled, too long or
           with too little answer space, and every refused call: each is refused
           by its code with nothing changed, and all else is finished
  check 2  answers and table: every word is the reference's
  check 3  isolation: for every domain, the calls kept for it, run again without
           the others, give it the same answers, rights, queues and lost counts
  check 4  counts: the number of calls, and at every endpoint what was sent is
           received, lost or waiting

On this computer an exercise is run too: lists made from the table that go
through everything it allows. Where no check failed, drills follow: finite sets
gone through whole, on this table and on 24 others, more than 100,000 runs. Then
a campaign: N drawn runs and four table images for each, the same everywhere.

Each check says passed, with what it is based on, or failed with the first
difference. What this table and list can't show is reported as `not shown`, with
the reason. Before the checks are the rights that calls could ever give on this
table: no verdict, but for whoever planned it.

  --answers A    the answers read back from a controller: the lines that linerun
                 prints, or three words a call, as bytes or as hexadecimal text
  --left T       the table read back from it: a text with a table, as `balkwizu
                 run` writes it, or its words, as bytes or as hexadecimal text
  --report OUT   write a report: a page of HTML to print on A4 and to sign
  --json OUT     write the same facts as JSON; docs/REPORT.md has the fields
  --controller TEXT, --site TEXT, --firmware TEXT
                 fill these fields of the report; otherwise its page has places
                 to write them by hand
  --purged D     list the calls that are purged for domain D, a number or a name
  --seed S       the seed of the variants and of the campaign (default 1)
  --campaign N   the runs of the campaign (default 50,000, some ten seconds of a
                 processor; 0 for none)
  --kernel NAME  which run of the archive: balkwizu (default), balkwizu-working
                 or balkwizu-by-length

Exit status: 0 no check failed; 1 a check failed, the input is refused, or other
words were read back than there must be; 2 bad usage, or a file that can't be
read or written; 3 no check failed and none was shown.
";

/// The command: whether no check failed.
pub fn command(options: &[OsString]) -> Result<bool, String> {
    commission::command(options, PROVED_RUNS)
}
