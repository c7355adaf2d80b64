"""plidesk expand: expands a main program with its members."""
import os

from desk import limits as bounds
from desk import standard, unproved
from desk.asking import answers_to, expander
from desk.definition import definition
from desk.errors import Stop
from desk.files import STANDARD_INPUT
from desk.gathering import gather, shelf_of
from desk.options import Options
from desk.output import make_rule, write_whole
from desk.refusals import shown_refusal
from desk.told import as_json, told_answer
from desk.trace import shown_trace

EXPANDED, REFUSED = 0, 1

USAGE = ('usage: plidesk expand [-c] [-I [LIBRARY=]DIR].. [-L LIBRARY] [-o FILE [-MD]] [-l] [--json] [--trace]\n'
         f'                      [--stats] {bounds.USAGE}\n'
         '                      [--unproved | --by definition] [NAME=]MAIN.pli [[NAME=]MEMBER.pli ..]\n')

HELP = USAGE + '''
Expands the percent statements of MAIN.pli. The other files are members that it can INCLUDE.
A member is called NAME, or else what stands before the first dot of its file's name; names that
differ in case alone are one. An argument with a / before its first = is a path alone, and - is
standard input, called MAIN.
'LIBRARY(NAME)=MEMBER.pli' puts a member into a library: %INCLUDE LIBRARY(NAME); means that member,
%INCLUDE NAME; the first one called NAME.

  -I DIR          find members in this folder too, by name; only those that the sources can include
                  are taken, and a member that is named on the command line comes first; again and
                  again, in this order
  -I LIBRARY=DIR  the same, for members of a library
  -L LIBRARY      the library of members that name none, where they have libraries; else it is MAIN
  -c              the files are card images: records of 80 bytes without line ends, source in columns
                  2 to 72; or, in a file that has line ends, lines of up to 80 characters, which are
                  padded with blanks to 80
  -o FILE         write the text to this file, when it is whole; - is standard output
  -MD             write a rule for make to FILE.d: what was read for FILE
  -l, --list      print the origin list too, to standard error: B an inserted blank, C a copied
                  stretch, V a replacement; then the member, the offset in its file (with -c in its
                  records), and the length in the text
  --unproved      let the referee answer, which cargo builds in seconds, and of which nothing is proved;
                  each answer says so
  --by definition let the definition itself answer, translated and run by node: the text that the proofs
                  are about, in place of the program that is proved
  --trace         tell each step of the run, to standard error: where it was, and what stands there
  --steps N       let the program take up to N steps, at most 4294967295; else it is 1000000
  --text N        give its text a room of N bytes, at most 1048576; else it is 65536
  --list-room N   give its origin list a room of N bytes, 12 for a line, at most 1048576; else it is 49152
                  (a program that finishes gives the same with any larger ones)
  --stats         say how many steps, bytes and lines were used beside these limits, to standard error
  --json          write the whole answer as JSON in place of the text, also if it is a refusal
  -h, --help      print this help
  --              no option stands behind this

Without -o the text goes to standard output. If the program is refused, standard error says why and
where. Exit status: 0 expanded, and all of the text written; 1 refused; 2 no answer, or not all of it
written. docs/plidesk.1 has more, and what each refusal means.
'''


def shown_list(deck, origins):
    return b''.join(b'%s %s %d %d\n' % (one.kind, deck.members[one.member].shown, one.offset, one.length)
                    for one in origins)


def target_of(options):
    """The file that is to be written, or None for standard output."""
    path = options.value('-o')
    return None if path == STANDARD_INPUT else path


def put(options, content):
    """Writes what was asked for to where it was asked for."""
    path = target_of(options)
    if path is None:
        standard.put_out(content)
    else:
        write_whole(path, content)


def put_rule(options, files):
    if options.has('-MD'):
        target = target_of(options)
        rule = make_rule(target, [file.path for file in files if file.path != STANDARD_INPUT])
        write_whole(target + '.d', rule.encode('utf-8', 'surrogateescape'))


def check_target(options, files):
    """No source is written over."""
    path = target_of(options)
    for file in files:
        if path is not None and os.path.exists(path) and file.path != STANDARD_INPUT and os.path.samefile(path, file.path):
            raise Stop(f'{path} is a source of this program')


def warn(files):
    for file in files:
        for warning in file.warnings:
            standard.say(f'warning: {file.path}: {warning}')


def answered_by(options):
    return 'referee' if options.has('--unproved') else options.value('--by', 'expander')


def who_answers(options):
    """The words that run what is to answer."""
    by = answered_by(options)
    if by == 'definition':
        return definition()
    if by == 'referee':
        return unproved.referee()
    return expander()


def expand(options):
    """Expands, shows what came out, and returns the status."""
    limits = bounds.limits_of(options)
    shelf = shelf_of(options.value('-L'), options.values('-I'))
    deck, files = gather(options.arguments, shelf, options.has('-c'))
    check_target(options, files)
    warn(files)
    words = who_answers(options)
    answer = answers_to([deck], words, limits)[0]
    if options.has('--unproved'):
        unproved.warn()
    if options.has('--trace'):
        standard.show(shown_trace(deck, answer, words, limits))
    is_refused = answer.number != 0
    if is_refused:
        standard.show(shown_refusal(deck, answer, shelf, words, limits))
    elif options.has('--list'):
        standard.show(shown_list(deck, answer.origins))
    if options.has('--stats'):
        standard.show(bounds.shown_use(answer, limits))
    if options.has('--json'):
        put(options, as_json(dict(told_answer(deck, files, answer), answered_by=answered_by(options),
                                  **bounds.told_use(answer, limits))))
    elif not is_refused:
        put(options, answer.text + b'\n')
    if not is_refused:
        put_rule(options, files)
    return REFUSED if is_refused else EXPANDED


def command(words, closed):
    """Does what the words behind `expand` ask for; closed are the standard files that were so."""
    options = Options(words, 'cI:L:o:M:lh',
                      ['list', 'json', 'unproved', 'by=', 'trace', 'stats', 'help', *bounds.LONG], USAGE)
    if options.has('--help'):
        standard.put_out(HELP.encode())
        return EXPANDED
    options.need_arguments()
    if options.value('--by', 'expander') not in ('expander', 'definition'):
        raise Stop(f'--by {options.value("--by")}: it is expander or definition')
    if options.has('-MD') and target_of(options) is None:
        raise Stop('-MD says what a file was made of, and needs -o')
    if standard.OUTPUT in closed and target_of(options) is None:
        raise Stop('standard output is closed')
    if options.has('--list') and standard.ERRORS in closed:
        raise Stop('standard error is closed, and the origin list goes there')
    return expand(options)
