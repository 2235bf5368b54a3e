"""What only a program that handles descriptors and signals can try of the command `crumb`.

usage: front_signals.py reads CRUMB PLAN      a pipe that does not wait; a terminal that hangs up behind 7 lines
       front_signals.py interrupt TREE PLAN   a build in TREE, interrupted: no process and no file is left
"""
import os, signal, subprocess, sys, tempfile, time


def complain(name, *seen):
    print(name, *seen)
    sys.exit(1)


def started(words, **more):
    return subprocess.Popen(words, stdout=subprocess.PIPE, stderr=subprocess.PIPE, start_new_session=True, **more)


def reads(crumb, plan):
    """A read that fails is status 3 and no answer."""
    out, into = os.pipe()
    os.set_blocking(out, False)
    pipe = started([crumb, 'list'], stdin=out)
    master, slave = os.openpty()
    with open(plan, 'rb') as text:
        os.write(master, b''.join(text.read().splitlines(keepends=True)[:7]))
    terminal = started([crumb, 'list'], stdin=slave)
    os.close(slave)
    terminal.stderr.readline()  # the hint that it reads from a terminal
    time.sleep(1)
    os.close(master)
    for name, call in ('pipe', pipe), ('terminal', terminal):
        said, error = call.communicate()
        if call.returncode != 3 or said or b'not read' not in error:
            complain(name, call.returncode, said, error)


def interrupt(tree, plan):
    """Ctrl-C, which every process of the terminal gets, and an end asked of the command alone."""
    for name in 'Ctrl-C', 'end':
        with tempfile.TemporaryDirectory() as scratch:
            call = started([os.path.join(tree, 'crumb'), 'list', plan], env=dict(os.environ, TMPDIR=scratch))
            call.stderr.readline()  # it has begun to build
            time.sleep(3)
            os.killpg(call.pid, signal.SIGINT) if name == 'Ctrl-C' else call.terminate()
            call.wait()
            time.sleep(1)
            left = subprocess.run(['pgrep', '-af', tree], capture_output=True, text=True).stdout
            left = [line for line in left.splitlines() if 'front_signals' not in line]
            if left or os.listdir(scratch) or call.returncode == 0:
                complain(name, call.returncode, left, os.listdir(scratch))


{'reads': reads, 'interrupt': interrupt}[sys.argv[1]](*sys.argv[2:])
