"""Options of a subcommand."""
import getopt

from desk.errors import Stop

# what else an option is called
LONG = {'-l': '--list', '-h': '--help', '-M': '-MD'}


class Options:
    """Options and arguments, which may stand in any order."""

    def __init__(self, words, short, long, usage):
        self.usage = usage
        try:
            options, self.arguments = getopt.gnu_getopt(words, short, long)
        except getopt.GetoptError as error:
            raise Stop(f'{error}\n{usage.rstrip()}') from None
        if any(option == '-M' and value != 'D' for option, value in options):
            raise Stop(f'option -M is -MD\n{usage.rstrip()}')
        self.given = [(LONG.get(option, option), value) for option, value in options]

    def has(self, option):
        return any(given == option for given, _ in self.given)

    def values(self, option):
        return [value for given, value in self.given if given == option]

    def value(self, option, otherwise=None):
        """The last that was given."""
        return (self.values(option) or [otherwise])[-1]

    def need_arguments(self):
        if not self.arguments:
            raise Stop(f'there is no file\n{self.usage.rstrip()}')
