"""The definition itself in place of the proved expander: the specs as they stand, translated and run (tests/definition)."""
import os
import shutil
import subprocess
import sys

from desk.asking import ROOT
from desk.errors import Stop
from desk.output import write_whole
from desk.running import output_of

FOLDER = os.path.join(ROOT, 'tests', 'definition')
# more than the translation has
MOST = 1 << 24


def definition():
    """The words that run the definition, which is translated each time: that takes a second, and is never old."""
    node = shutil.which('node')
    if node is None:
        raise Stop('--by definition needs node, which runs the translated specs')
    if not os.path.isdir(FOLDER):
        raise Stop('--by definition needs the tree of the sources')
    translated = output_of('the translation', [sys.executable, '-B', os.path.join(FOLDER, 'translate.py')], MOST,
                           stdin=subprocess.DEVNULL, cwd=ROOT)
    path = os.path.join(ROOT, 'target', 'definition', 'definition.js')
    os.makedirs(os.path.dirname(path), exist_ok=True)
    write_whole(path, translated)
    return [node, os.path.join(FOLDER, 'answer.js'), path]
