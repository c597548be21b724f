"""What tools/archive, tools/module and tools/quick ask of crates.txt and of the toolchain. They run in the repository's folder."""
import os, subprocess, sys

def kit():
    """The toolchain's folder."""
    try:
        return os.path.dirname(subprocess.run(['rt', 'doc'], check=True, stdout=subprocess.PIPE, text=True).stdout.strip())
    except OSError:
        sys.exit(f"{os.path.relpath(sys.argv[0])}: no 'rt' on the PATH: it is the command of the Rattle toolchain, which proves and builds this repository")

def deps():
    """What each crate of crates.txt stands on."""
    found = {}
    for line in open('crates.txt', encoding='utf-8'):
        name, colon, on = line.partition('#')[0].partition(':')
        if colon:
            found[name.split()[0]] = on.split()
    return found

def below(crate, on, seen=None):
    """The crates of the repository that this one stands on, each after those that it stands on itself."""
    seen = [] if seen is None else seen
    for d in on[crate]:
        if d in on and d not in seen:
            below(d, on, seen)
            seen.append(d)
    return seen

def left_by_ci(crate):
    """Whether the libraries below are those that rt ci left: rt's other commands write a stamp beside a library."""
    at = [f'crates/{c}/out/rlib' for c in below(crate, deps())]
    return all(os.path.isdir(it) and not os.path.exists(f'{it}/stamp') for it in at)

def compiled(crate, to, log, toolchain=None):
    """Proves a program or a static library, and compiles it over the libraries that stand in out/, as rt does; whether that could be done."""
    on, home, program = deps(), kit(), os.path.exists(f'crates/{crate}/src/main.rt')
    rlib = lambda c: os.path.abspath(f'crates/{c}/out/rlib/{c}.rlib') if c in on else f'{home}/rlibs/{c}.rlib'
    words = ['--crate-name', crate, 'src/main.rt' if program else 'src/lib.rt', '-L', f'dependency={home}/rlibs']
    words += [w for c in ['std', *on[crate]] for w in ('--extern', f'{c}={rlib(c)}')]
    words += [w for c in below(crate, on) for w in ('-L', f'dependency={os.path.dirname(rlib(c))}')]
    words += ['--antt-project', f'{home}/rattle/logic/antt-project.json', '--logic-built', f'{home}/logic_built', '--jobs', '2', '--links', f'{crate}=']
    words += ([] if program else ['--crate-type', 'staticlib']) + ['--cpu', CPU, '--toolchain', toolchain or f'{home}/toolchain', '--backend', 'llvm']
    os.makedirs(f'crates/{crate}/out', exist_ok=True)
    return said(log, crate, f'{home}/bin/rattle', 'build', *words, '-o', os.path.abspath(to)) == 0

# what runs on every x86-64
CPU = 'x86-64'

def said(log, crate, *words):
    """Runs a command in the crate's folder; what it says goes into the log."""
    with open(log, 'a', encoding='utf-8') as out:
        return subprocess.run(words, cwd=f'crates/{crate}', stdin=subprocess.DEVNULL, stdout=out, stderr=out).returncode
