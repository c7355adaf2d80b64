"""The command: finds the subcommand, and ends with a status whatever happens."""
import traceback

from desk import expand, install, page, shift, standard
from desk.errors import Interrupted, Stop
from desk.running import watch_signals
from desk.version import VERSION

DONE, NOTHING = 0, 2

USAGE = 'usage: plidesk expand | shift | page | install | --help | --version\n'

HELP = USAGE + '''
  plidesk expand MAIN.pli ..   expands a program
  plidesk shift JOB ..         expands many, and writes the release sheet
  plidesk page MAIN.pli ..     writes a page that shows where each byte came from
  plidesk install PREFIX       copies a built tree to a prefix
  plidesk COMMAND --help       says what a command takes
  plidesk --version            prints the version

docs/plidesk.1 is the manual page.
'''

COMMANDS = {'expand': expand.command, 'shift': shift.command, 'page': page.command, 'install': install.command}


def command(words, closed):
    """Does what the words of the command line ask for; closed are the standard files that were so."""
    if words[:1] in (['-h'], ['--help']):
        standard.put_out(HELP.encode())
        return DONE
    if words[:1] == ['--version']:
        standard.put_out(f'plidesk {VERSION}\n'.encode())
        return DONE
    if not words:
        raise Stop(f'there is no command\n{USAGE.rstrip()}')
    if words[0] not in COMMANDS:
        raise Stop(f'there is no command {words[0]}\n{USAGE.rstrip()}')
    return COMMANDS[words[0]](words[1:], closed)


def main(words):
    """Runs the command and returns its status, which is 0 if all of what was asked for is written, and for nothing else."""
    closed = standard.open_files()
    try:
        watch_signals()
        return command(words, closed)
    except Stop as stop:
        if stop.args:
            standard.say(stop)
    except Interrupted as reason:
        standard.say('; '.join(['stopped', *reason.args]))
    except Exception:    # a fault of this command must not look like a refusal
        standard.tell(traceback.format_exc())
        standard.say('a fault in this command: there is no answer')
    return NOTHING
