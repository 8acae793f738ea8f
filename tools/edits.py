"""Edits of crates in a scratch copy of the repository, for the tools that try wrong programs beside those that `rt must-fail` tries."""
import os
import shutil
import subprocess
import sys


def replacements(path, crate):
    """The replacements (file, old text, new text) of an edit of a crate; a line `crate: NAME` turns to another."""
    file = old = ''
    with open(path, encoding='utf-8') as lines:
        for line in lines:
            key, _, text = line.rstrip('\n').partition(':')
            text = text[1:]
            if key == 'crate':
                crate = text
            elif key == 'file':
                file = os.path.join('crates', crate, text)
            elif key == 'old':
                old = text
            elif key == 'new':
                yield file, old, text


def value(path, key):
    """What an edit's line `key: TEXT` has."""
    with open(path, encoding='utf-8') as lines:
        return next((line.rstrip('\n').partition(': ')[2] for line in lines if line.startswith(key + ': ')), '')


def apply(paths, crate, folder):
    """Makes the edits in a copy of the repository, each by the text as it was: there its old text must stand once."""
    places = {}
    for path in paths:
        found = list(replacements(path, crate))
        if not found:
            sys.exit('%s replaces nothing' % path)
        for file, old, new in found:
            with open(file, encoding='utf-8') as f:
                text = f.read()
            if not old or text.count(old) != 1:
                sys.exit('%s: its text stands %d times in %s: %s' % (path, text.count(old), file, old))
            places.setdefault(file, []).append((text.index(old), old, new))
    for file, changes in places.items():
        with open(file, encoding='utf-8') as f:
            text = f.read()
        behind = len(text)
        for at, old, new in sorted(changes, reverse=True):
            if at + len(old) > behind:
                sys.exit('two edits of %s meet at: %s' % (file, old))
            text, behind = text[:at] + new + text[at + len(old):], at
        with open(os.path.join(folder, file), 'w', encoding='utf-8') as f:
            f.write(text)


def copy(folder):
    """The crates alone: a check there begins with what a check of the same crate here kept (`rt help`)."""
    shutil.copytree('crates', os.path.join(folder, 'crates'), ignore=shutil.ignore_patterns('out', 'must-fail', 'wrong'))
    shutil.copy('crates.txt', folder)


def check(crate, folder):
    """The exit status of `rt check` of that crate there, and the lines that it wrote."""
    run = subprocess.run(['rt', 'check'], cwd=os.path.join(folder, 'crates', crate), capture_output=True, text=True)
    text = (run.stdout + run.stderr).replace(os.path.realpath(folder) + '/', '')
    return run.returncode, text.split('\n')
