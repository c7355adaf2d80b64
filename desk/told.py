"""Answers for other programs: as JSON, each byte of a text or name a character of the same code."""
import json

from desk.places import spot
from desk.version import VERSION
from desk.words import MEANINGS, PLACELESS

KINDS = {b'B': 'blank', b'C': 'copied', b'V': 'replaced'}


def written(content):
    return content.decode('latin-1')


def told_place(deck, member, offset):
    found = spot(deck, member, offset)
    return {'member': member, 'offset': offset, 'line': found.line, 'column': found.column}


def told_answer(deck, files, answer):
    """An answer with its sources as one object."""
    told = {
        'version': VERSION,
        'number': answer.number,
        'meaning': MEANINGS.get(answer.number, 'finished'),
        'steps': answer.steps,
        'members': [{'name': written(one.shown), 'path': file.path, 'sha256': file.digest, 'bytes': len(one.body)}
                    for one, file in zip(deck.members, files)],
    }
    if answer.number > PLACELESS:
        told['place'] = told_place(deck, answer.member, answer.offset)
    if answer.number == 0:
        told['text'] = written(answer.text)
        told['list'] = [dict(told_place(deck, one.member, one.offset), kind=KINDS[one.kind], length=one.length)
                        for one in answer.origins]
    return told


def as_json(told):
    return json.dumps(told, indent=1).encode() + b'\n'
