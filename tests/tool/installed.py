"""What `make install` puts where, and that a C program builds against it; and that `make uninstall` takes it away."""
import re
import shutil
import subprocess
import tempfile
from pathlib import Path

from harness import ROOT, check

FILES = ['bin/coils', 'bin/yard', 'include/yard.h', 'lib/libyard.a', 'lib/pkgconfig/yard.pc', 'share/man/man1/yard.1']


def version():
    """The version as the header has it, the one place where it stands."""
    header = (ROOT / 'include' / 'yard.h').read_text()
    return '.'.join(re.search(rf'YARD_VERSION_{part} (\d+)', header)[1] for part in ('MAJOR', 'MINOR'))


def output(*words, **options):
    done = subprocess.run([str(word) for word in words], capture_output=True, text=True, cwd=ROOT, **options)
    return done.returncode, done.stdout, done.stderr


def files_below(folder):
    return sorted(str(path.relative_to(folder)) for path in folder.rglob('*') if path.is_file())


def make(target, prefix, **others):
    words = [f'{name}={value}' for name, value in others.items()]
    status, out, err = output('make', '-s', target, f'PREFIX={prefix}', *words)
    check(f'make {target}', (status, err), (0, ''))


def builds_against(prefix, folder):
    """An example program, by nothing but what pkg-config says."""
    paths = {'PKG_CONFIG_PATH': str(prefix / 'lib' / 'pkgconfig'), 'PATH': '/usr/local/bin:/usr/bin:/bin'}
    check('pkg-config, version', output('pkg-config', '--modversion', 'yard', env=paths), (0, version() + '\n', ''))
    status, flags, err = output('pkg-config', '--cflags', '--libs', 'yard', env=paths)
    check('pkg-config, flags', (status, err), (0, ''))
    program = folder / 'way'
    built = output('cc', '-std=c99', '-o', program, 'examples/way.c', *flags.split(), env=paths)
    check('a C program is built', built, (0, '', ''))
    check('and runs', output(program, 'crates/coils/data/yard.map', 0, 6),
          (0, '0 4 5 6 in 9 tenths of a second, 3 moves, 3 page fetches\n', ''))


def run():
    with tempfile.TemporaryDirectory() as name:
        folder = Path(name)
        prefix = folder / 'an installed yard'
        make('install', prefix)
        check('what is installed', files_below(prefix), FILES)
        check('yard --version', output(prefix / 'bin' / 'yard', '--version'), (0, f'yard {version()}\n', ''))
        if shutil.which('pkg-config') and shutil.which('cc'):
            make('install', folder / 'plain')
            builds_against(folder / 'plain', folder)
        else:
            print('installed: no pkg-config or no C compiler, so no program was built')
        make('uninstall', prefix)
        check('what is left', files_below(prefix), [])
        stage = folder / 'stage'
        make('install', '/opt/yard', DESTDIR=stage)
        check('what is staged', files_below(stage), [f'opt/yard/{file}' for file in FILES])
        check('the prefix of what is staged', 'prefix=/opt/yard\n' in
              (stage / 'opt/yard/lib/pkgconfig/yard.pc').read_text(), True)
        make('uninstall', '/opt/yard', DESTDIR=stage)
        check('what is left of it', files_below(stage), [])
