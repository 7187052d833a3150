"""How the kit's gate is called. Nothing is proved here."""
import os
import subprocess
import sys
import unittest
from tempfile import TemporaryDirectory

from cli.sources import HERE

# A kit whose crates tell what is asked of them: the gate asks each crate and each below it, path by path.
KIT = '''#!%s
import sys, types
rtlib = types.SimpleNamespace()
class Crate:
    def __init__(self, folder, below): self.folder, self.low = folder, below
    def stamp(self):
        print('stamp', self.folder)
        return [it.stamp() for it in self.low]
    def below(self): return self.low
%s
def main(words):
    low = Crate('low', [])
    middle = [Crate('one', [low]), Crate('other', [low])]
    Crate('high', middle).stamp()
    print(words)
    return 3
if __name__ == '__main__':
    sys.exit(main(sys.argv[1:]))
'''


def called(kit):
    """The lines and the status of the gate, with this kit on the path."""
    with TemporaryDirectory() as folder:
        path = os.path.join(folder, 'rt')
        with open(path, 'w', encoding='utf-8') as file:
            file.write(kit)
        os.chmod(path, 0o755)
        words = [sys.executable, os.path.join(HERE, 'cli', 'gate.py')]
        done = subprocess.run(words, stdout=subprocess.PIPE, text=True, check=False,
                              env={**os.environ, 'PATH': folder + os.pathsep + os.environ['PATH']})
    return done.stdout.splitlines(), done.returncode


class GateTest(unittest.TestCase):
    def test_what_is_known_of_a_crate_is_computed_once(self):
        lines, status = called(KIT % (sys.executable, 'rtlib.Crate = Crate'))
        self.assertEqual(lines, ['stamp high', 'stamp one', 'stamp low', 'stamp other', "['ci']"])
        self.assertEqual(status, 3)

    def test_a_kit_that_is_made_otherwise_is_called_as_it_is(self):
        lines, status = called(KIT % (sys.executable, ''))
        self.assertEqual(lines, ['stamp high', 'stamp one', 'stamp low', 'stamp other', 'stamp low', "['ci']"])
        self.assertEqual(status, 3)


if __name__ == '__main__':
    unittest.main()
