"""The two files of a program's stored cases: written beside the file that knows them, or compared with what stands there."""
import os, sys


def keep(folder, stdin, stdout, count):
    """With --check: says whether stdin and stdout are what they should be, and exits. Else writes both."""
    files = {'stdin': stdin, 'stdout': stdout}
    if sys.argv[1:] == ['--check']:
        wrong = [name for name, text in files.items() if open(os.path.join(folder, name), 'rb').read() != text]
        print('crates/%s: %s' % (os.path.basename(folder), '%s differs: run expected.py' % ', '.join(wrong) if wrong else '%d cases' % count))
        sys.exit(bool(wrong))
    for name, text in files.items():
        with open(os.path.join(folder, name), 'wb') as file:
            file.write(text)
