"""Builds the library for hosts, hosts/lib/libjirrambeo.a: its crate proved and compiled, with what the kit's heap
needs.

Where `rt ci` has passed in this folder, by `./check`, the proved libraries below the crate stand in crates/*/out, and
the crate is proved and compiled over them, in a minute; else the gate proves a copy of them first, as `./jirrambeo
build` does. Either way nothing is compiled that isn't proved."""
import os
import shutil
import subprocess
import sys

from cli import inference
from cli.building import alone, called, has_kit, made, note_built, proved
from cli.inference import ADDON, has_library
from cli.saying import FIRST_BUILD, say
from cli.sources import CRATES, HERE, crates_in_order, digest

LIBRARY = 'jirrambeo'
OUT = os.path.join(CRATES, LIBRARY, 'out')
MADE = os.path.join(OUT, 'libjirrambeo.a')  # the crate's archive
PASSED = os.path.join(OUT, 'passed')  # the digest of the sources over which rt ci passed here
FOLDER = os.path.join(HERE, 'hosts', 'lib')
ARCHIVE = os.path.join(FOLDER, 'libjirrambeo.a')
STAMP = os.path.join(FOLDER, 'built_from')


def read(path):
    try:
        with open(path, encoding='ascii') as file:
            return file.read()
    except OSError:
        return None


def write(path, text):
    os.makedirs(os.path.dirname(path), exist_ok=True)
    with open(path, 'w', encoding='ascii') as file:
        file.write(text)


def kit_folder():
    told = subprocess.run(['rt', 'doc'], stdout=subprocess.PIPE, check=True, text=True).stdout
    return os.path.dirname(told.strip().split('\n')[-1])


def standing():
    """The digests of the sources that are there, of the library and of the program."""
    return digest(crates_in_order(LIBRARY)), digest(crates_in_order())


def forget_libraries():
    """Removes the libraries that stand in crates/*/out: rt ci puts back those of an earlier run, and these may be of
    other sources than it passes over."""
    for name in os.listdir(CRATES):
        shutil.rmtree(os.path.join(CRATES, name, 'out', 'rlib'), ignore_errors=True)


def note_passed(over):
    """Notes that rt ci passed over the sources of these digests, if they are there still: it leaves what it proved in
    crates/*/out, and the program where a build puts it."""
    if standing() == over:
        library, program = over
        write(PASSED, library)
        note_built(program)


def library_of(name, top=HERE):
    return made(top, name, os.path.join('rlib', name + '.rlib'))


def over_libraries(names, top, kit):
    """The command that proves and compiles the crate over the proved libraries of those below it."""
    words = [os.path.join(kit, 'bin', 'rattle'), 'build', '--crate-name', LIBRARY, 'src/lib.rt',
             '--extern', 'std=%s/rlibs/std.rlib' % kit, '-L', 'dependency=%s/rlibs' % kit]
    for name in names[:-1]:
        words += ['-L', 'dependency=' + os.path.dirname(library_of(name, top))]
    words += ['--extern', 'alias_host=' + library_of('alias_host', top),
              '--antt-project', kit + '/rattle/logic/antt-project.json', '--logic-built', kit + '/logic_built',
              '--jobs', '1', '--links', LIBRARY + '=', '--crate-type', 'staticlib',
              '--toolchain', kit + '/toolchain', '--backend', 'llvm', '-o', MADE]
    return words


def compiled_over_libraries(names, top, kit):
    """Whether the crate's archive was made over the proved libraries of a folder; what the compiler said stands in
    out/archive.log."""
    with open(os.path.join(OUT, 'archive.log'), 'wb') as log:
        done = subprocess.run(over_libraries(names, top, kit), cwd=os.path.join(CRATES, LIBRARY),
                              stdin=subprocess.DEVNULL, stdout=log, stderr=subprocess.STDOUT, check=False)
    return done.returncode == 0 and os.path.isfile(MADE)


def stands_proved(names, wanted):
    """Whether what rt ci proved of these sources where they stand is still there."""
    return read(PASSED) == wanted and all(os.path.isdir(library_of(name)) for name in names[:-1])


def compiled(names, wanted, kit):
    """Whether the crate's archive was made, over what rt ci proved where it stands, or over what it proves of a
    copy."""
    os.makedirs(OUT, exist_ok=True)
    if os.path.exists(MADE):
        os.remove(MADE)
    if stands_proved(names, wanted) and compiled_over_libraries(names, HERE, kit):
        return True
    say('proving the library and the crates below it, which takes %s the first time on four processors' % FIRST_BUILD)
    with alone(), proved(names) as top:
        return top is not None and compiled_over_libraries(names, top, kit)


def merged(kit):
    """Puts the crate's archive and the kit's heap into one. Answers whether that was done."""
    os.makedirs(FOLDER, exist_ok=True)
    parts = [('archive.a', MADE), ('heap.a', os.path.join(kit, 'c', 'liblibc_c.a'))]
    for name, path in parts:
        shutil.copyfile(path, os.path.join(FOLDER, name))
    script = 'create libjirrambeo.a\n%ssave\nend\n' % ''.join('addlib %s\n' % name for name, _ in parts)
    done = subprocess.run(['ar', '-M'], cwd=FOLDER, input=script, text=True, check=False)
    for name, _ in parts:
        os.remove(os.path.join(FOLDER, name))
    return done.returncode == 0


def addon():
    """Makes the addon for Node of the library that stands, by which the command asks it, where what it wants is
    there."""
    if has_library():
        return
    for path in (ADDON, inference.STAMP):
        if os.path.exists(path):
            os.remove(path)
    missing = [tool for tool in ('node', 'gcc') if shutil.which(tool) is None]
    if not missing and subprocess.run([os.path.join(HERE, 'hosts', 'node', 'build')], check=False).returncode == 0:
        write(inference.STAMP, inference.addon_digest())
        return
    say('the addon for Node is not made%s: commands on source start a process for each function' %
        (', %s is not there' % ' '.join(missing) if missing else ''))


def main():
    status = archive()
    if status == 0:
        addon()
    return status


def archive():
    """Makes the library. Answers 0 where it stands, built from the sources that are there."""
    names = crates_in_order(LIBRARY)
    wanted = digest(names)
    if read(STAMP) == wanted and os.path.isfile(ARCHIVE):
        return 0
    if not has_kit():
        return 1
    kit = kit_folder()
    for path in (STAMP, ARCHIVE):
        if os.path.exists(path):
            os.remove(path)
    if not compiled(names, wanted, kit) or not merged(kit):
        say('the library was not built: see the logs in crates/%s/out' % LIBRARY)
        return 1
    if digest(names) != wanted:
        say('the sources changed while the library was built: call again')
        return 1
    write(STAMP, wanted)
    return 0


if __name__ == '__main__':
    sys.exit(called(main))
