"""How far a build is: on a terminal in one line that changes, else in a line for each crate when it is begun."""
import os
import re
import time

from desk import standard

# what rt says when it begins with a crate, of most crates, and when it has ended with one
SAID = re.compile(rb'^rt: (?:(\S+): begins |chose --jobs \d+ for (\S+)$)|^crate (\S+): modules ', re.MULTILINE)
WIDTH = 75


class Progress:
    def __init__(self, plan, log):
        self.plan = plan
        self.places = {os.fsencode(crate): place for place, crate in enumerate(plan)}
        self.log = log
        self.told = 0
        self.began = time.monotonic()
        self.is_terminal = os.isatty(standard.ERRORS)

    def spent(self):
        minutes, seconds = divmod(int(time.monotonic() - self.began), 60)
        return f'{minutes} min {seconds} s' if minutes else f'{seconds} s'

    def ended(self):
        """How many crates rt has ended with: it proves one behind another, and says nothing of those that it has proved."""
        with open(self.log, 'rb') as file:
            said = SAID.findall(file.read())
        begun = [self.places.get(name or other, 0) for name, other, _ in said]
        ended = [self.places.get(name, -1) + 1 for _, _, name in said]
        return max(begun + ended, default=0)

    def show(self):
        ended = self.ended()
        if self.is_terminal:
            self.change_line(ended)
        else:
            self.add_lines(ended)

    def left(self, ended):
        return f'{self.spent()}, {len(self.plan) - ended} of {len(self.plan)} crates left'

    def change_line(self, ended):
        now = ''.join(f', proving {crate}' for crate in self.plan[ended:ended + 1])
        line = f'{standard.COMMAND}: {self.left(ended)}{now}'
        standard.tell(f'\r{line[:WIDTH]:{WIDTH}}')

    def add_lines(self, ended):
        for crate in self.plan[self.told:ended + 1]:
            standard.say(f'{self.left(self.told)}, proving {crate}')
            self.told += 1

    def close(self, is_whole=False):
        """Ends the line that changes, where all is built with none left."""
        if self.is_terminal:
            if is_whole:
                self.change_line(len(self.plan))
            standard.tell('\n')
