"""The program, proved where it is there and else its sources unproved."""
import os
import shutil
import sys

from cli.saying import FIRST_BUILD, NO_KIT, say
from cli.sources import BUILT, is_built
from cli.stamps import digest_now

UNPROVED = (
    'not proved on this machine: `./jirrambeo build` proves and builds it, in %s; until then each call takes a '
    'minute or more'
    % FIRST_BUILD)


def is_proved():
    """Whether the proved program stands. Says so where it doesn't, and answers None where nothing can be run in its
    place."""
    if is_built(digest_now()):
        return True
    if os.environ.get('JIRRAMBEO_PROVED'):
        say('not proved on this machine, and JIRRAMBEO_PROVED is set: `./jirrambeo build` proves and builds it')
        return None
    if shutil.which('rt') is None:
        say(NO_KIT)
        return None
    say(UNPROVED)
    return False


def tried(words, data):
    from cli.trying import tried as run_of_sources

    return run_of_sources(words, data)


def run(words):
    """Runs the program on standard input, in this process's place where it is proved. Answers its status."""
    proved = is_proved()
    if proved:
        os.execv(BUILT, [BUILT, *words])
    if proved is None:
        return 1
    status, text = tried(words, None)
    sys.stdout.buffer.write(text)
    sys.stdout.buffer.flush()
    return status


def answered(proved, words, data):
    """The status and the text of a run on these bytes, of the proved program or its sources."""
    if not proved:
        return tried(words, data)
    import subprocess  # here, since most calls run nothing beside themselves

    done = subprocess.run([BUILT, *words], input=data, stdout=subprocess.PIPE, check=False)
    return done.returncode, done.stdout


def answer(words, data):
    """The same, of whichever is there: status 1 where neither is."""
    proved = is_proved()
    return (1, b'') if proved is None else answered(proved, words, data)
