"""plidesk page: one file that shows the expansion of a program beside its sources."""
import html
import os

from desk import standard
from desk.asking import answers_to, expander
from desk.errors import Stop
from desk.expand import EXPANDED, REFUSED, check_target, warn
from desk.gathering import gather, shelf_of
from desk.limits import LONG, limits_of
from desk.limits import USAGE as LIMITS
from desk.markup import (as_data, data_of, marks_of, names_section, parts_of, path_of, segments, source_section,
                         text_section, verdict)
from desk.options import Options
from desk.output import write_whole
from desk.places import led_by
from desk.refusals import hints_for
from desk.version import VERSION

HERE = os.path.dirname(os.path.realpath(__file__))
SEARCH = ('<form role="search"><input id="wanted" type="search" placeholder="search" '
          'aria-label="search the text, then the sources"><button>next</button></form>')
KEYS = 'arrows move, [ and ] to the next name, Enter to the source and back, / searches'

USAGE = ('usage: plidesk page [-c] [-I [LIBRARY=]DIR].. [-L LIBRARY] -o PAGE.html\n'
         f'                    {LIMITS}\n'
         '                    [NAME=]MAIN.pli [[NAME=]MEMBER.pli ..]\n')

HELP = USAGE + '''
Writes one file for a browser: the expansion of a program beside its sources, each stretch, blank and
replacement marked, and a table of names with where each ended up. Pointing at a byte shows where it
came from, a click leads there and back. Of a refused program it shows the place. The file needs no
network and nothing else. Files and options are those of plidesk expand; -o says where the page goes.
Exit status: 0 expanded; 1 refused, and the page shows where; 2 there is no page.
'''


def part_of_desk(name):
    with open(os.path.join(HERE, name), encoding='utf-8') as file:
        return file.read()


def panes(deck, answer, parts, found):
    """The panes of a page: sources, and if the program finished its text and names."""
    kinds = [part.kind for part in parts]
    sources = ''.join(source_section(deck, number, found[number], kinds) for number in range(len(deck.members)))
    shown = f'<section class="pane sources"><h2>Sources</h2>{sources}</section>'
    if answer.number != 0:
        return f'<main class="refused">{shown}</main>'
    return (f'<main>{shown}<section class="pane"><h2>Expansion</h2>{text_section(deck, parts, answer.text)}</section>'
            f'<section class="pane names"><h2>Names</h2>{names_section(deck, parts, answer.text)}</section></main>')


def header(deck, answer, hints):
    bad = ' class="bad"' if answer.number else ''
    led = [led_by(deck, answer.member).decode('utf-8', 'replace').strip()] if answer.number else []
    notes = ''.join(f'<p>{html.escape(note)}</p>' for note in led + [f'hint: {hint}' for hint in hints] if note)
    links = ''.join(f'<a href="#m{number}">{html.escape(one.shown.decode())}</a>' for number, one in enumerate(deck.members))
    return (f'<header><h1>{html.escape(path_of(deck, 0))}</h1><p{bad}>{html.escape(verdict(deck, answer))}</p>'
            f'{notes}<nav aria-label="members">{links}</nav>'
            f'{"" if answer.number else SEARCH}</header>')


def footer(answer):
    keys = '' if answer.number else f'{KEYS}; '
    return f'<footer><output id="readout" aria-live="polite"></output><small>{keys}plidesk {VERSION}</small></footer>'


def page_of(deck, answer, hints=()):
    """The page of an answer, as bytes; hints are those of a refusal."""
    parts = parts_of(deck, answer)
    found = segments(deck, parts, marks_of(deck, answer) if answer.number else [])
    return f'''<!DOCTYPE html>
<html lang="en">
<head>
<meta charset="utf-8">
<meta name="viewport" content="width=device-width, initial-scale=1">
<title>{html.escape(path_of(deck, 0))}</title>
<style>
{part_of_desk('page.css')}</style>
</head>
<body>
{header(deck, answer, hints)}
{panes(deck, answer, parts, found)}
{footer(answer)}
<script type="application/json" id="data">{as_data(data_of(deck, parts, found))}</script>
<script>
{part_of_desk('page.js')}</script>
</body>
</html>
'''.encode('utf-8', 'replace')


def page(options):
    limits = limits_of(options)
    shelf = shelf_of(options.value('-L'), options.values('-I'))
    deck, files = gather(options.arguments, shelf, options.has('-c'))
    check_target(options, files)
    warn(files)
    words = expander()
    answer = answers_to([deck], words, limits)[0]
    hints = hints_for(deck, answer, shelf, words, limits) if answer.number else []
    write_whole(options.value('-o'), page_of(deck, answer, hints))
    return REFUSED if answer.number else EXPANDED


def command(words, _closed):
    options = Options(words, 'cI:L:o:h', ['help', *LONG], USAGE)
    if options.has('--help'):
        standard.put_out(HELP.encode())
        return EXPANDED
    options.need_arguments()
    if options.value('-o') is None:
        raise Stop(f'-o says where the page goes\n{USAGE.rstrip()}')
    return page(options)
