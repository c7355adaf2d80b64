"""plidesk shift: expands many programs, and writes the release sheet."""
import contextlib
import fcntl
import hashlib
import json
import os
import time

from desk import standard
from desk.asking import expander, identity
from desk.batches import Batches
from desk.errors import Stop
from desk.expand import shown_list
from desk.gathering import gather, shelf_of
from desk.jobs import jobs_of
from desk.limits import LONG, limits_of
from desk.limits import USAGE as LIMITS
from desk.options import Options
from desk.output import write_whole
from desk.page import page_of
from desk.places import spot
from desk.refusals import hints_for
from desk.sheets import (EARLIER, FILES, FINISHED, NOT_RUN, REFUSED, as_csv, as_json, as_text, compare, read_sheet,
                         totals_of)
from desk.words import MEANINGS, PLACELESS

ALL, SOME, BROKEN = 0, 1, 2
TEXT, LIST, PAGE = '.text', '.list', '.html'
JOURNAL = 'shift.journal'

USAGE = ('usage: plidesk shift [-c] [-I [LIBRARY=]DIR].. [-L LIBRARY] [-j N] [--since SHEET] [--pages]\n'
         f'                     {LIMITS} -o OUT JOB ..\n')

HELP = USAGE + '''
Expands each main program. A JOB is its file, a folder of such files, or @ and a job file: a line
for each program, with its main program and perhaps members, as `plidesk expand` takes them, and -c in
front if they are card images; paths there are from the job file on, and # begins a comment. A program
is called NAME if its main program is NAME=path, else as its file up to the first dot.

  -o OUT         the folder that gets NAME.text and NAME.list for each program that finished, and the
                 release sheet as sheet.txt, sheet.json and sheet.csv
  -I, -L, -c     as for plidesk expand, for all programs
  --steps N, --text N, --list-room N
                 as for plidesk expand, for all programs; the sheet has them if they are not the usual ones
  -j N           so many processes at a time; without it as many as there are processors
  --since SHEET  say what changed since an earlier sheet: sheet.json, or its folder
  --pages        write NAME.html too, for refused programs as well
  -h, --help     print this help

The sheet goes to standard output too. What an earlier shift left in OUT for these programs is
removed before they run, and its sheet is kept as earlier.json. A shift that was stopped is taken up
again by the same command.
Exit status: 0 all finished; 1 some were refused; 2 something could not be run or written.
'''


def now():
    return time.strftime('%Y-%m-%d %H:%M:%S UTC', time.gmtime())


def digest(content):
    return hashlib.sha256(content).hexdigest()


class Work:
    """A program of the shift: its deck and files, or why there are none."""

    def __init__(self, job, shelf):
        self.job, self.shelf = job, shelf
        self.deck, self.files, self.reason = None, [], None
        try:
            self.deck, self.files = gather(job.arguments, shelf, job.is_cards)
        except Stop as stop:
            self.reason = str(stop)

    def row(self, answer, hints=()):
        """The row of the sheet for an answer, with hints if it is a refusal; or for a reason why there is none."""
        row = {'program': self.job.name, 'verdict': NOT_RUN, 'number': None, 'words': '', 'place': '', 'steps': None,
               'bytes': None, 'lines': None, 'text_sha256': '',
               'deck_sha256': digest(self.deck.content) if self.deck else '',
               'sources': [{'path': file.path, 'sha256': file.digest} for file in self.files],
               'hints': list(hints),
               'warnings': [f'{file.path}: {warning}' for file in self.files for warning in file.warnings]}
        if isinstance(answer, str):
            return dict(row, words=answer)
        row.update(number=answer.number, words=MEANINGS.get(answer.number, ''), steps=answer.steps)
        if answer.number == 0:
            return dict(row, verdict=FINISHED, bytes=len(answer.text), lines=len(answer.origins),
                        text_sha256=digest(answer.text + b'\n'))
        return dict(row, verdict=REFUSED, place=self.place(answer))

    def place(self, answer):
        if answer.number <= PLACELESS:
            return ''
        found = spot(self.deck, answer.member, answer.offset)
        return f'{os.fsdecode(self.deck.called(answer.member))}:{found.line}:{found.column}'


class Out:
    """The folder of a shift. Its journal has a line for each program that is done, until the sheet is written."""

    def __init__(self, path, is_pages, expanded_by, limits):
        self.path, self.is_pages, self.expanded_by, self.limits = path, is_pages, expanded_by, limits
        self.journal = None

    def at(self, name):
        return os.path.join(self.path, name)

    @contextlib.contextmanager
    def held(self):
        """One shift at a time writes here."""
        try:
            os.makedirs(self.path, exist_ok=True)
            with open(self.at(JOURNAL), 'a+b') as self.journal:
                try:
                    fcntl.flock(self.journal, fcntl.LOCK_EX | fcntl.LOCK_NB)
                except BlockingIOError:
                    raise Stop(f'{self.path}: another shift is writing there') from None
                yield
        except OSError as error:
            raise Stop(f'{self.path}: {error.strerror}') from None

    def done_before(self):
        """The rows of a shift that was stopped, by program: those of this expander and these limits, with or without pages as
        now."""
        self.journal.seek(0)
        rows = {}
        for line in self.journal.read().splitlines():
            with contextlib.suppress(ValueError, TypeError, KeyError):    # the last line may be cut
                entry = json.loads(line)
                row = entry.pop('row')
                if entry == self.made_by():
                    rows[row['program']] = row
        return rows

    def is_whole(self, row):
        """Whether what a row says is still in the folder."""
        if self.is_pages and not os.path.exists(self.at(row['program'] + PAGE)):
            return False
        if row['verdict'] != FINISHED:
            return row['verdict'] == REFUSED
        try:
            with open(self.at(row['program'] + TEXT), 'rb') as file:
                return digest(file.read()) == row['text_sha256'] and os.path.exists(self.at(row['program'] + LIST))
        except OSError:
            return False

    def made_by(self):
        """What a row of the journal must agree in to be taken up again."""
        return {'by': self.expanded_by, 'pages': self.is_pages, 'limits': self.limits._asdict()}

    def note(self, row):
        entry = dict(self.made_by(), row=row)
        self.journal.seek(0, os.SEEK_END)
        self.journal.write(b'\n' + json.dumps(entry).encode())
        self.journal.flush()

    def clear(self, name):
        """Removes what an earlier night left for a program."""
        for suffix in (TEXT, LIST, PAGE):
            with contextlib.suppress(FileNotFoundError):
                os.remove(self.at(name + suffix))

    def clear_sheets(self):
        """A shift that is not over has no sheet; that of the shift before is kept under another name."""
        with contextlib.suppress(FileNotFoundError):
            os.replace(self.at(FILES[0]), self.at(EARLIER))
        for name in FILES[1:]:
            with contextlib.suppress(FileNotFoundError):
                os.remove(self.at(name))

    def stale(self, names):
        """Files that are not of this shift and look as if they were."""
        return sorted(file for file in os.listdir(self.path)
                      if os.path.splitext(file)[1] in (TEXT, LIST, PAGE) and os.path.splitext(file)[0] not in names)

    def put(self, work, answer, hints):
        if answer.number == 0:
            write_whole(self.at(work.job.name + LIST), shown_list(work.deck, answer.origins))
            write_whole(self.at(work.job.name + TEXT), answer.text + b'\n')
        if self.is_pages:
            write_whole(self.at(work.job.name + PAGE), page_of(work.deck, answer, hints))

    def put_sheet(self, sheet):
        for name, content in zip(FILES, (as_json(sheet), as_csv(sheet), as_text(sheet))):
            write_whole(self.at(name), content)
        os.remove(self.at(JOURNAL))


class Tally:
    """How far a shift is: on a terminal in one line that changes."""

    def __init__(self, count):
        self.count, self.rows, self.began = count, [], time.monotonic()
        self.is_terminal = os.isatty(standard.ERRORS)

    def add(self, row):
        self.rows.append(row)
        if self.is_terminal:
            totals = totals_of(self.rows)
            standard.tell(f'\r{standard.COMMAND}: {len(self.rows)} of {self.count}, {totals[REFUSED]} refused, '
                          f'{totals[NOT_RUN]} not run, {time.monotonic() - self.began:.1f} s ')

    def close(self):
        if self.is_terminal and self.rows:
            standard.tell('\n')


def run(works, out, words, count):
    """Runs what is not done yet; the rows by program."""
    before = out.done_before()
    tally = Tally(len(works))
    left = []
    for work in works:
        row = before.get(work.job.name)
        if work.deck is None:
            out.clear(work.job.name)
            tally.add(work.row(work.reason))
        elif row and row['deck_sha256'] == digest(work.deck.content) and out.is_whole(row):
            tally.add(row)
        else:
            out.clear(work.job.name)
            left.append(work)
    try:
        batches = Batches([work.deck for work in left], words, count, out.limits)
        with contextlib.closing(batches.answers()) as answers:
            for number, answer in answers:
                tally.add(settle(left[number], answer, out, words))
    finally:
        tally.close()
    return {row['program']: row for row in tally.rows}


def settle(work, answer, out, words):
    """Writes what came of a program, and notes that it is done."""
    if isinstance(answer, Stop):
        return work.row(str(answer))
    hints = hints_for(work.deck, answer, work.shelf, words, out.limits) if answer.number else []
    out.put(work, answer, hints)
    row = work.row(answer, hints)
    out.note(row)
    return row


def shift(options):
    limits = limits_of(options)
    shelf = shelf_of(options.value('-L'), options.values('-I'))
    jobs = jobs_of(options.arguments, options.has('-c'))
    earlier, since = read_sheet(options.value('--since')) if options.value('--since') else ({}, None)
    works = [Work(job, shelf) for job in jobs]
    words = expander()
    out = Out(options.value('-o'), options.has('--pages'), identity(), limits)
    began = now()
    with out.held():
        out.clear_sheets()
        rows = run(works, out, words, processes(options.value('-j')))
        ordered = [rows[work.job.name] for work in works]
        sheet = {'began': began, 'ended': now(), 'expander': out.expanded_by, 'limits': limits._asdict(),
                 'programs': ordered, 'stale': out.stale(rows)}
        if since:
            sheet.update(since=since, gone=compare(ordered, earlier))
        out.put_sheet(sheet)
    standard.put_out(as_text(sheet))
    totals = totals_of(ordered)
    return BROKEN if totals[NOT_RUN] else SOME if totals[REFUSED] else ALL


def processes(given):
    if given is None:
        return os.cpu_count() or 1
    if not given.isdecimal() or not 1 <= int(given) <= 1000:
        raise Stop(f'-j {given}: it takes a number from 1 on')
    return int(given)


def command(words, closed):
    options = Options(words, 'cI:L:o:j:h', ['since=', 'pages', 'help', *LONG], USAGE)
    if options.has('--help'):
        standard.put_out(HELP.encode())
        return ALL
    options.need_arguments()
    if options.value('-o') is None:
        raise Stop(f'-o says where the texts and the sheet go\n{USAGE.rstrip()}')
    if standard.OUTPUT in closed:
        raise Stop('standard output is closed')
    return shift(options)
