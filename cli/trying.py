"""Runs the program's sources without a proof, with checks at run time: for a first look, where the proved program
isn't there."""
import os
import subprocess
import sys

from cli.sources import CRATES, PROGRAM


def tried(words, data):
    """The status and the text of a run of the sources on these bytes, or on standard input. What the run itself says
    of its checks is shown only where it came to no end."""
    command = ['rt', 'try', '--steps', '1', '--', *words]
    given = {'input': data} if data is not None else {}
    run = subprocess.run(command,
                         cwd=os.path.join(CRATES, PROGRAM),
                         stdout=subprocess.PIPE,
                         stderr=subprocess.PIPE,
                         check=False,
                         **given)
    if b'\nrun=ended ' not in b'\n' + run.stderr:
        sys.stderr.buffer.write(run.stderr)
        return 1, b''
    return run.returncode, run.stdout
