# What the auditor's folder says of its own making: the commit, the tools, the archives, the last gate's verdict and
# what has changed since it.
import hashlib
import os
import platform
import re
import subprocess
import sys
import time

ROOT = os.path.dirname(os.path.dirname(os.path.dirname(os.path.abspath(__file__))))


def git(*words):
    return subprocess.run(['git', *words], cwd=ROOT, capture_output=True, text=True)


def tracked():
    names = git('ls-files').stdout.split('\n')
    return [n for n in names if n and os.path.isfile(os.path.join(ROOT, n))]


def sum_of(path):
    with open(path, 'rb') as file:
        return hashlib.sha256(file.read()).hexdigest()


def said(*words):
    """The first line of what a command says of itself."""
    try:
        done = subprocess.run(words, cwd=ROOT, capture_output=True, text=True)
    except OSError:
        return 'not found'
    return (done.stdout.strip().splitlines() or ['?'])[0]


def archives():
    """Each target with its archive, if make archives wrote it: one whose stamp says that it was proved."""
    folder = os.path.join(ROOT, 'target', 'archives')
    found = sorted(os.listdir(folder)) if os.path.isdir(folder) else []
    paths = [(name, os.path.join(folder, name, 'libmonitor.a')) for name in found if name != 'module']
    return [(name, path) for name, path in paths if os.path.exists(path) and proved(path)]


def proved(path):
    with open(path, 'rb') as file:
        return b' logic=proved ' in file.read()


def commit():
    changed = git('status', '--porcelain').stdout
    return git('rev-parse', 'HEAD').stdout.strip() + (', with changes' if changed else '')


def versions():
    home = os.path.dirname(said('rt', 'doc'))
    clang = os.path.join(home, 'toolchain', 'bin', 'clang')
    system = [l.split('=')[1].strip().strip('"') for l in open('/etc/os-release') if l.startswith('PRETTY_NAME=')] \
        if os.path.exists('/etc/os-release') else []
    lines = ['commit     ' + commit(), 'made       ' + time.strftime('%Y-%m-%dT%H:%MZ', time.gmtime()),
             'machine    %s, %s' % (platform.machine(), ''.join(system) or platform.system()),
             'toolchain  ' + said('rt', 'version'), 'clang      ' + said(clang, '--version'),
             'gcc        ' + said('gcc', '--version'), 'rustc      ' + said('rustc', '--version'),
             'qemu       ' + said('qemu-riscv64-static', '--version'), 'python3    ' + sys.version.split()[0]]
    told = os.path.join(ROOT, 'target', 'archives', 'ARCHIVES.txt')
    if archives():
        lines += ['', 'The archives:', '', open(told).read().rstrip(), '']
        lines += ['sha256 %s  %s/libmonitor.a' % (sum_of(path), name) for name, path in archives()]
    else:
        lines += ['', 'No archives that were proved are here: make archives writes them.']
    return '\n'.join(lines) + '\n'


def verdict():
    """The last gate's, docs/verdict.txt, and beside it what this folder is of."""
    block = open(os.path.join(ROOT, 'docs/verdict.txt')).read()
    gated = re.search(r'^commit +([0-9a-f]+)', block, re.M)
    if not gated:
        return 'docs/verdict.txt has no verdict of a gate\n'
    this = block + 'this       ' + commit() + '\n'
    if git('rev-parse', '--verify', gated.group(1) + '^{commit}').returncode != 0:
        return this + 'what has changed since that gate is not known: its commit is not here\n'
    since = git('diff', '--name-only', gated.group(1)).stdout.split()
    if not since:
        return this + 'every file is as it was in that gate\n'
    inside = [n for n in since if n.startswith('crates/')]
    return this + 'changed since that gate: %d files, %d of them under crates/\n' % (len(since), len(inside)) + \
        ''.join('    %s\n' % n for n in since)
