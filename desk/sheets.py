"""The release sheet: a row for each program, as JSON, as CSV and as text to print."""
import csv
import io
import json
import os

from desk.errors import Stop
from desk.limits import STANDARD, Limits, shown_limits
from desk.names import folded
from desk.version import VERSION

FINISHED, REFUSED, NOT_RUN = 'finished', 'refused', 'not run'
COLUMNS = ('program', 'verdict', 'number', 'words', 'place', 'steps', 'bytes', 'lines', 'text_sha256', 'deck_sha256',
           'change')
# how much of a digest is printed
SHORT = 16
FILES = ('sheet.json', 'sheet.csv', 'sheet.txt')
# what the sheet of the shift before is kept as
EARLIER = 'earlier.json'


def totals_of(rows):
    return {verdict: sum(row['verdict'] == verdict for row in rows) for verdict in (FINISHED, REFUSED, NOT_RUN)}


# ---- since an earlier sheet

def read_sheet(path):
    """The rows of an earlier sheet, by its path or that of its folder, and when it was made."""
    if os.path.isdir(path):
        path = os.path.join(path, FILES[0])
    if os.path.basename(path) == FILES[0] and not os.path.exists(path):    # a shift was begun that would replace it
        path = os.path.join(os.path.dirname(path), EARLIER)
    try:
        with open(path, encoding='utf-8') as file:
            sheet = json.load(file)
        return {key_of_row(row): row for row in sheet['programs']}, sheet['ended']
    except OSError as error:
        raise Stop(f'--since {path}: {error.strerror}') from None
    except (ValueError, KeyError, TypeError):
        raise Stop(f'--since {path}: it is no release sheet as JSON') from None


def key_of_row(row):
    """What the row of a program is looked up by."""
    return folded(os.fsencode(row['program']))


def has_sources_of(row, before):
    """Whether two rows have the same deck, or files of the same content: case of their names alone is no change."""
    digests = [[one['sha256'] for one in each['sources']] for each in (row, before)]
    return row['deck_sha256'] == before['deck_sha256'] or digests[0] == digests[1]


def change(row, before):
    """What is new in a row since the one of an earlier sheet, or None."""
    if before is None:
        return 'new'
    is_same = has_sources_of(row, before)
    sources = 'the same sources' if is_same else 'changed sources'
    if (row['verdict'], row['number']) != (before['verdict'], before['number']):
        was = before['verdict'] + (f' with {before["number"]}' if before['verdict'] == REFUSED else '')
        return f'was {was}; {sources}'
    if row['text_sha256'] != before['text_sha256']:
        return f'the text changed; {sources}'
    return 'the same' if is_same else 'the same text; changed sources'


def compare(rows, earlier):
    """Enters what changed into the rows; returns the programs that are no longer there."""
    for row in rows:
        row['change'] = change(row, earlier.get(key_of_row(row)))
    gone = earlier.keys() - set(map(key_of_row, rows))
    return sorted(earlier[key]['program'] for key in gone)


# ---- forms

def as_json(sheet):
    return json.dumps(dict(sheet, version=VERSION, totals=totals_of(sheet['programs'])), indent=1).encode() + b'\n'


def as_csv(sheet):
    content = io.StringIO()
    writer = csv.DictWriter(content, COLUMNS, extrasaction='ignore', lineterminator='\n')
    writer.writeheader()
    writer.writerows(sheet['programs'])
    return content.getvalue().encode('utf-8', 'surrogateescape')


def shown_row(row, width):
    """A line of the text, and for what did not finish one more that says why and where."""
    line = f'{row["program"]:{width}}  {row["verdict"]}'
    if row['verdict'] == FINISHED:
        line += f'  {row["steps"]:>7}  {row["bytes"]:>6}  {row["lines"]:>5}  {row["text_sha256"][:SHORT]}'
    elif row['verdict'] == REFUSED:
        place = f'{row["place"]}: ' if row['place'] else ''
        line += f'\n    {place}refusal {row["number"]}: {row["words"]}'
    else:
        line += f'\n    {row["words"]}'
    notes = [f'hint: {hint}' for hint in row['hints']] + [f'warning: {warning}' for warning in row['warnings']]
    if row.get('change') not in (None, 'the same'):
        notes.append(row['change'])
    return '\n    '.join([line, *notes])


def as_text(sheet):
    rows, limits = sheet['programs'], Limits(**sheet['limits'])
    width = max([7] + [len(row['program']) for row in rows])
    totals = ', '.join(f'{count} {verdict}' for verdict, count in totals_of(rows).items())
    lines = [f'RELEASE SHEET, {sheet["ended"]}', f'plidesk {VERSION}, {sheet["expander"]}']
    if limits != STANDARD:
        lines.append(f'limits: {shown_limits(limits)}')
    lines += ['', f'{"PROGRAM":{width}}  VERDICT     STEPS   BYTES  LINES  TEXT, SHA-256']
    lines += [shown_row(row, width) for row in rows]
    lines += ['', f'{len(rows)} programs: {totals}']
    if sheet.get('since'):
        lines.append(f'compared with the sheet of {sheet["since"]}')
    lines += [f'no longer there: {name}' for name in sheet.get('gone', [])]
    lines += [f'stale, not of this shift: {name}' for name in sheet['stale']]
    lines += ['', 'Released by: ______________________    Date: ______________', '']
    return '\n'.join(lines).encode('utf-8', 'surrogateescape')
