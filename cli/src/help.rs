//! What `--help` prints, for the program and for each of its commands.

use crate::proved;

pub const PROGRAM: &str = "\
usage: teaselshears COMMAND [OPTION]... ARGUMENT...

The audit of registry batches, and the reference host. Verdict and order are those of the proved library.

  audit DIR...               audits the batch in each folder DIR
  order DIR                  tells how the batch in folder DIR, where it is accepted, could have gone
  record DIR OUT             runs the schedule in folder DIR on the reference host, and writes its batch to OUT
  audit-all SPOOL RESULTS    audits every batch of a spool once, and keeps the results
  results RESULTS            lists the results that are kept, by time
  explain N                  says what verdict N means, and what to do next
  help COMMAND               says more of a command

  -h, --help                 this text, or that of a command; asked for alone
  -V, --version              the version, the sum of the library's sources, and the kit that proved it; asked for alone

Options stand anywhere before '--', behind which everything is an argument. One that is a name in the working folder is
not taken (status 2): a shell may have put it there, as in 'audit *'.

Exit status of audit, order and audit-all: 0 accepted, 1 refused, 2 could not be run, 3 accepted, but with no request in
it, or with --complete, with requests left open. Wipe a lane on 0 of one of these and on nothing else. The others end in
0 where they recorded, listed or told what was asked.

Examples:
  teaselshears audit /lane/7
  teaselshears help audit-all
";

pub const AUDIT: &str = "\
usage: teaselshears audit [--complete] [--json [--brief]] [--missing-as-empty] DIR...
       teaselshears audit [--complete] --json [--brief] [--missing-as-empty] [-0] -

Audits the batch in folder DIR: programs.txt, trace.txt and report.txt. Each is read once, and what was read is what
is audited. A batch with a text that is seen to change meanwhile is not run; move a batch to its place when it is whole.

Standard output: what the proved function makes, byte for byte that of the proved program 'audit':
  verdict=N      0 accepted, 1 to 12 refused ('teaselshears explain N' says more)
  line=N         the line that the verdict names, 0 where it names none
  requests=N     how many requests and operations the batch has; 0 where it is refused
  operations=N
  blocks=N       the whole hundreds of operations, by which they are charged; 0 where it is refused
  rest=N         the operations left over, 0 to 99, for the next bill; 0 where it is refused
and behind them, only where it is accepted, an order in which it could have gone, one line for each line of the trace
and each operation ('teaselshears order DIR' tells it in words):
  event=N        line N of the trace
  op=RID,NUM     operation NUM of request RID
Of what may come next operations go before lines of the trace, and of several operations the one whose log line stands
first in the report. Of several folders a line batch=DIR stands before each.
Standard error: one sentence a batch: accepted with these counts and, where some were, how many requests were left open
(never got a response), or the verdict with its cause, the text and the line with its bytes (what is not printable as \\
and three octal digits).

      --complete          a batch with requests left open, where it is accepted, ends in 3 and not in 0
      --json              one JSON object a batch in place of both: form, batch, state, verdict, line, text, bytes,
                          requests, operations, blocks, rest, open, order, sentence, time, version, library, kit; null
                          where there is none. 'form' is the number of this form, 1; 'state' is accepted, empty (with
                          no request in it), open (see --complete), refused or failed; a byte of 'bytes' is the
                          character of its number; 'open' is how many requests were left open, 0 where it is refused;
                          'order' is a list of the order's lines; 'time' is in UTC; a name that is not UTF-8 is a list
                          of its bytes
      --brief             leaves 'order' out of the object
      --missing-as-empty  a missing file is an empty text; without it such a batch is not run. A folder with none
                          of the three files is never run
  -                       in place of DIR, and not behind '--': takes folder names from standard input, one a line, and
                          prints an object for each
  -0, --null              names are ended by a zero byte and not by a line feed, the last one too
  -h, --help              this text

Exit status: 0 accepted, 1 refused, 3 accepted, but with no request in it, or see --complete; 2 could not be run: no such
folder, a text that is missing, is not a regular file, cannot be read or changed while it was read, standard output that
cannot be written. Of several batches the worst: 2, then 1, then 3. Wipe on 0 and on nothing else.

Examples:
  teaselshears audit /lane/7 && echo 'lane 7 may be wiped'
  for lane in /lane/*; do teaselshears audit --complete --json --brief -- \"$lane\"; done >verdicts
";

pub const ORDER: &str = "\
usage: teaselshears order [--complete] [--missing-as-empty] DIR

Audits the batch in folder DIR as 'teaselshears audit' does and, where it is accepted, tells a person how it could have
gone.

Standard output: the order that 'teaselshears audit' prints, with words from column 15 on; nothing where the batch is
refused:
  event=N        line N of the trace: its bytes
  op=RID,NUM     operation NUM of request RID: its line in the report with its bytes, and what the request does:
                   writes V to register O
                   reads register O and gets V
                   puts V at key K of store O
                   reads key K of store O and gets V
                   asks whether store O holds key K and gets 1 (yes) or 0 (no)
Standard error: one sentence, that of 'teaselshears audit', and behind it which requests were left open, each with how
many operations it had carried out.

The order is proved: the first word of each line. The words behind it and the line numbers are not: this program looks
for the line of each item. Of an accepted batch, what a log line says was written or read, and whether a key was held,
is proved to be so.

      --complete          a batch with requests left open, where it is accepted, ends in 3 and not in 0
      --missing-as-empty  a missing file is an empty text; without it such a batch is not run. A folder with none
                          of the three files is never run
  -h, --help              this text

Exit status: that of 'teaselshears audit': 0 accepted, 1 refused, 2 could not be run, 3 accepted, but with no request in
it, or see --complete.

Examples:
  teaselshears order /lane/7 | less
  teaselshears order /lane/7 | grep ' store 9'
";

pub const RECORD: &str = "\
usage: teaselshears record [--missing-as-empty] DIR OUT

Runs the schedule in folder DIR (programs.txt and schedule.txt, each read once) on the reference host, and writes the
batch to folder OUT: programs.txt as it was read, trace.txt and report.txt. The audit accepts it. OUT appears whole, by
one rename, or not at all; a run that is killed may leave a folder beside it whose name begins with '.teaselshears-',
which the next run that writes there clears away. An OUT that is there is left alone, with status 2, unless it holds
just these three texts already.

Standard output: the lines that the proved program 'record' prints before the trace:
  verdict=N      0 recorded; 1, 2, 13, 14 refused ('teaselshears explain N' says more)
  line=N         the line that the verdict names, 0 where it names none
Standard error: one sentence: recorded, with the counts and, where some were, how many requests were left open, or the
verdict with its cause, the text and the line with its bytes.

      --missing-as-empty  a missing file is an empty text; without it nothing is run. A folder with neither file is
                          never run
  -h, --help              this text

Exit status: 0 recorded, and OUT is written; 1 refused, and nothing is written; 2 could not be run, or OUT is written and
standard output cannot be. It says nothing of a lane: audit what was recorded.

Examples:
  teaselshears record /schedules/monday /batches/monday
  teaselshears record /schedules/monday /batches/monday && teaselshears audit /batches/monday
";

pub const AUDIT_ALL: &str = "\
usage: teaselshears audit-all [--complete] [--jobs N] [--json [--brief] | --list STATE [-0]] SPOOL RESULTS

Audits each batch of folder SPOOL once, and keeps the results in folder RESULTS. It can be stopped at any moment, by
Ctrl-C or a kill, and run again: what was kept stays, and what was not is audited.

SPOOL: every name in it is a batch, but for names that begin with a dot. A batch is a folder with programs.txt,
trace.txt and report.txt; all three have to be there, be it empty. Move a batch into the spool whole: write it under a
name that begins with a dot, then rename it. The name of a batch is used once.

RESULTS: new, empty, or made by this command; not in SPOOL, nor SPOOL in it.
  batches/NAME/programs.txt, trace.txt, report.txt   the texts that were audited
  batches/NAME/output                                what 'teaselshears audit' prints for them, or what it printed
                                                     in the version that kept it
  batches/NAME/about                                 time (UTC), version, library, kit and sentence
  table.csv                                          a heading, and a row for each batch of the spool and each kept
                                                     result: batch, state, verdict, line, requests, operations,
                                                     blocks, rest, time, sentence, open, version, library. CSV as
                                                     RFC 4180 has it, in UTF-8
A result appears whole, by one rename. One run at a time works on a RESULTS; another waits three seconds and gives up.

A kept result counts only where the proved function, asked again for the kept texts, gives what was kept. A row's
state is
  accepted
  empty      accepted, but with no request in it
  open       with --complete: accepted, but with requests left open
  refused
  changed    the texts in the spool are not those that were audited
  outdated   another version of the library kept something else than this one gives
  damaged    the kept result is not whole, or is not what this library gives for the kept texts
  failed     the batch or its kept result could not be read, or its result not be kept: the next run tries again
  waiting    the run was stopped before it
The first four have a verdict. To have a batch that is changed, outdated or damaged audited anew, remove batches/NAME.
A batch from before values read were shown in the log, with 0 in their place, is outdated, and then refused as 10; one
that was refused as 4 for a request never answered is outdated, and may then be accepted, with that request left open.

Standard error: on a terminal a line of progress, otherwise a line for each batch that is audited; a line for each
that is not accepted, in a later run too; and the counts.

      --complete   batches with requests left open, where they are accepted, have the state open
  -j, --jobs N     so many audits at a time, 1 to 999; the number of processors if not given
      --json       prints an object for each batch, as 'teaselshears audit --json' does
      --brief      leaves 'order' out of the object
      --list STATE prints the names of the rows that have a state other than accepted and waiting, one a line, those of
                   kept results that are no longer in SPOOL too ('teaselshears results' needs no run)
  -0, --null       names of --list are ended by a zero byte, and are printed as they are
  -h, --help       this text

In table and list a name is as it is where it is UTF-8; a backslash, and what is not printable or not UTF-8, is written
\\\\ or \\xNN for each byte; and in the table so is a first character =, +, - or @, which begins a formula.

Exit status, over the batches that are in SPOOL now: 0 all are accepted; 3 some are empty or open, the others accepted; 1
some are refused, the others accepted, empty or open; 2 some are changed, outdated, damaged or failed; or the run was
stopped, there is no batch, or RESULTS or standard output cannot be written. Wipe on 0 and on nothing else.

Examples:
  teaselshears audit-all /spool /results
  teaselshears audit-all --complete --list open /spool /results
";

pub const RESULTS: &str = "\
usage: teaselshears results [--since TIME] [--state STATE] [--verdict N] [--complete] [--json [--brief]] RESULTS

Lists what 'teaselshears audit-all' keeps in folder RESULTS, the oldest first. It writes nothing, and waits for no run
that is at work there. Each kept result is asked for again: the proved function is given the kept texts, and what it
gives has to be what was kept ('teaselshears audit-all --help' says what the states are). Which batches changed, failed
or wait is told as the table of the last run that ended has it; a kept result that is not the one of the table, or is
gone, is damaged.

Standard output: a line for each, with a tab between its parts: name, time (UTC), state, verdict, and the sentence.

      --since TIME    those since then: a day, as 2026-11-16, or a time, as 2026-11-16T08:30:00Z; both in UTC
      --state STATE   those that are accepted, empty, open, refused, changed, outdated, damaged, failed or waiting
      --verdict N     those that have verdict N
      --complete      accepted batches with requests left open have the state open
      --json          an object for each, as 'teaselshears audit --json' prints it, with the time at which it was kept
                      and the program that kept it
      --brief         leaves 'order' out of the object
  -h, --help          this text

Exit status: 0 listed, be it nothing; 2 could not be run. It says nothing of a lane: it is of what was audited before.

Examples:
  teaselshears results --since 2026-11-16 --state refused /results
  teaselshears results --json --brief --verdict 10 /results
";

pub const EXPLAIN: &str = "\
usage: teaselshears explain N

Says what verdict N (0 to 14, 16) means: its rule, a small example, and what to do next.

  -h, --help       this text

Examples:
  teaselshears explain 10
  teaselshears explain 0
";

/// What `--version` prints.
pub fn version() -> String {
    let (version, library, kit) = (proved::VERSION, proved::LIBRARY, proved::KIT);
    format!("teaselshears {version}\nlibrary {library}\nkit {kit}\n")
}
