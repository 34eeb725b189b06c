"""What the test scripts have in common: running a program of target/bin or in C, what a page shows of it, comparing what it writes, and counting."""
import os, platform, re, shutil, subprocess, sys
here = os.path.dirname(os.path.abspath(__file__))
root = os.path.join(here, '..')
passed = failed = 0

def program(name):
    """The words that run a program: the one that the test was given, or target/bin/NAME."""
    return [os.path.join(here, 'on-host'), os.path.abspath(sys.argv[1]) if len(sys.argv) > 1 else os.path.join(here, '../target/bin', name)]

def judge(what, good):
    global passed, failed
    passed, failed = passed + bool(good), failed + (not good)
    if not good:
        print(what)

def compare(what, expected, found):
    judge('%s: expected %r, found %r' % (what, str(expected)[:400], str(found)[:400]), expected == found)

# What a refusal says in words on standard error, by what stands on standard output.
WORDS = {'refused 01\n': r'usage: .*\n|.*: (cannot be opened|cannot be read|(\d+|more than 16384) bytes, and an image of the (EM73862 has 8192|EM73P982 has 16384))\n',
         'refused 02\n': r'--p3 is over 15, or its bits 1\.\.0 are 3\n',
         'refused 20\n': r'ADDRESS is one to four hexadecimal digits up to 1FFF, with 0x before them or h behind if you like\n'}

def compare_run(what, words, out, err='', **source):
    """Both outputs of a program, whose exit status is always 0. A refusal alone on standard output has its words on standard error."""
    ran = subprocess.run(words, capture_output=True, timeout=60, **(source or {'stdin': subprocess.DEVNULL}))
    said = ran.stderr.decode()
    if out in WORDS and re.fullmatch(WORDS[out], said):
        said = err
    compare(what, (out, err, 0), (ran.stdout.decode(), said, ran.returncode))

def run(words):
    """The exit status and both outputs of a program that is run at the root."""
    ran = subprocess.run(words, cwd=root, stdin=subprocess.DEVNULL, capture_output=True, text=True, timeout=600)
    return ran.returncode, ran.stdout, ran.stderr

def c_programs(folder, name, source, archives):
    """The words that run a program in C linked with the archives: as the kit's tools make it, on every processor, and as cc does where it makes x86-64 code.

    Elsewhere cc, where there is one, only compiles it, with warnings as errors as everywhere."""
    made = os.path.join(folder, name)
    compare('tools/link-program ' + name, (0, '', ''), run(['tools/link-program', made, source] + archives))
    programs = [[os.path.join(here, 'on-host'), made]]
    if shutil.which('cc'):
        native = platform.machine() == 'x86_64'
        words = ['cc', '-std=c11', '-Wall', '-Wextra', '-Werror', '-Iinclude', '-x', 'c', source, '-o', made + '-by-cc', '-x', 'none']
        compare('cc ' + name, (0, '', ''), run(words + (['target/lib/lib%s.a' % archive for archive in archives] if native else ['-c'])))
        programs += [[made + '-by-cc']] if native else []
    return programs

def shown(page, command):
    """What a page shows of the command on the indented line that ends so: the indented lines after the blank one behind it."""
    text = open(os.path.join(root, page)).read()
    found = re.findall(r'^    [^\n]*%s\n\n((?:    [^\n]*\n)+)' % re.escape(command), text, re.M)
    assert len(found) == 1, '%s shows %s %d times' % (page, command, len(found))
    return re.sub('^    ', '', found[0], flags=re.M)

def write_image(folder, name, size=8192, **codes):
    """An image of zeros but for some codes, each at the address that its name has after an underline."""
    content = bytearray(size)
    for at, code in codes.items():
        start, code = int(at[1:], 16), bytes.fromhex(code)
        content[start:start + len(code)] = code
    path = os.path.join(folder, name)
    open(path, 'wb').write(content)
    return path

def end():
    print('%d passed, %d failed' % (passed, failed))
    sys.exit(1 if failed else 0)
