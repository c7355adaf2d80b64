"""The referee in place of the proved expander, for whoever wants to look first: it is built in seconds, and nothing of it is
proved."""
import os
import shutil
import subprocess

from desk.asking import ROOT
from desk.errors import Stop
from desk.running import how_ended, started
from desk.standard import say

WARNING = 'unproved: the referee gave this answer, and nothing of it is proved'


def referee():
    """The words that run the referee, which cargo builds where it has to be."""
    cargo = shutil.which('cargo')
    if cargo is None:
        raise Stop('--unproved needs cargo, which builds the referee')
    target = os.path.join(ROOT, 'target', 'referee')
    words = [cargo, 'build', '--quiet', '--release', '--offline', '--target-dir', target,
             '--manifest-path', os.path.join(ROOT, 'referee', 'Cargo.toml')]
    with started(words, is_group=True, stdin=subprocess.DEVNULL, stdout=subprocess.DEVNULL) as child:
        status = child.wait()
    if status != 0:
        raise Stop(f'the referee was not built: cargo {how_ended(status)}')
    return [os.path.join(target, 'release', 'referee')]


def warn():
    say(WARNING)
