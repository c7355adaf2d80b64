"""Which programs a shift has: files, folders of them, and lists in job files."""
import collections
import os
import shlex

from desk.errors import Stop
from desk.files import STANDARD_INPUT, split_argument
from desk.names import folded

# what a program is called in the sheet and in OUT, the main program and its members as arguments, and whether it is cards
Job = collections.namedtuple('Job', 'name arguments is_cards')


def job_of(arguments, is_cards):
    """The program of arguments; it is called as its main program is, NAME=path, or else as the file."""
    written, path = split_argument(arguments[0])
    name = written.rpartition('(')[2].rstrip(')') or os.path.basename(path).partition('.')[0]
    return Job(name, arguments, is_cards)


def in_folder(folder, is_cards):
    """A program for each file in a folder."""
    names = sorted(name for name in os.listdir(folder) if not name.startswith('.') and not name.endswith('~'))
    paths = [os.path.join(folder, name) for name in names]
    return [job_of([path], is_cards) for path in paths if os.path.isfile(path)]


def beside(path, word):
    """A word of a job file, NAME=path or path, with the path from the folder of that file on."""
    name, rest = split_argument(word)
    return (f'{name}=' if name else '') + os.path.join(os.path.dirname(path), rest)


def in_job_file(path, is_cards):
    """A program for each line: its main program, then members; -c in front if they are cards. # begins a comment."""
    with open(path, encoding='utf-8', errors='surrogateescape') as file:
        lines = file.read().splitlines()
    jobs = []
    for number, line in enumerate(lines, 1):
        try:
            words = shlex.split(line, comments=True)
        except ValueError as error:
            raise Stop(f'{path}, line {number}: {error}') from None
        is_line_cards = is_cards or words[:1] == ['-c']
        words = words[words[:1] == ['-c']:]
        if any(word.startswith('-') for word in words):
            raise Stop(f'{path}, line {number}: -c is the one option of a job')
        if words:
            jobs.append(job_of([beside(path, word) for word in words], is_line_cards))
    return jobs


def jobs_of(words, is_cards):
    """The programs that the words of a command line ask for: each a file, a folder, or @ and a job file."""
    jobs = []
    for word in words:
        if word == STANDARD_INPUT:
            raise Stop('a shift reads no program from standard input')
        try:
            if word.startswith('@'):
                jobs += in_job_file(word[1:], is_cards)
            elif os.path.isdir(word):
                jobs += in_folder(word, is_cards)
            else:
                jobs.append(job_of([word], is_cards))
        except OSError as error:
            raise Stop(f'{word}: {error.strerror}') from None
    check_names(jobs)
    return jobs


def check_names(jobs):
    if not jobs:
        raise Stop('there is no program')
    seen = {}
    for job in jobs:
        earlier = seen.setdefault(folded(os.fsencode(job.name)), job)
        if not job.name or earlier is not job:
            other = f' and {earlier.arguments[0]}' if job.name else ''
            case = '' if earlier.name == job.name else f'; {job.name} and {earlier.name} differ in case alone'
            raise Stop(f'{job.arguments[0]}{other}: each program needs a name of its own in the sheet{case}')
