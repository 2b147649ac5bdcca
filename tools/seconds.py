#!/usr/bin/env python3
"""seconds.py CRATE [CRATE ..]: where the time of a crate's check goes, function by function.

Checks the crate with `rt check --jobs 1`, its kept work (out/incremental) set aside, and takes the time between two lines 'checked
FUNCTION'. The lemma files that a function's proof is the first to cite count as that function's. What another checkout on this machine keeps
of the crate rt takes all the same, and says so in a line 'begins with': the seconds are then of what had still to be checked."""
import collections
import os
import re
import shutil
import subprocess
import sys
import tempfile
import time

ROOT = os.path.dirname(os.path.dirname(os.path.abspath(__file__)))


def main():
    for crate in sys.argv[1:]:
        folder = os.path.join(ROOT, 'crates', crate)
        kept = os.path.join(folder, 'out', 'incremental')
        os.makedirs(os.path.dirname(kept), exist_ok=True)
        with tempfile.TemporaryDirectory(dir=os.path.dirname(kept)) as aside:
            if os.path.isdir(kept):
                shutil.move(kept, aside)
            try:
                # the libraries below are built before the clock starts
                subprocess.run(['rt', 'check', '--only', ''], cwd=folder, stdout=subprocess.DEVNULL, stderr=subprocess.DEVNULL)
                shutil.rmtree(kept, ignore_errors=True)
                run = subprocess.Popen(['rt', 'check', '--jobs', '1'], cwd=folder, stdout=subprocess.PIPE, stderr=subprocess.STDOUT, text=True)
                began = before = time.monotonic()
                seconds, told = collections.Counter(), []
                for line in run.stdout:
                    now = time.monotonic()
                    told.append(line)
                    done = re.match(r'checked \w+::(\S+), ', line)
                    if done:
                        seconds[done[1]] += now - before
                        before = now
                if run.wait() != 0:
                    sys.exit(f'{crate} is not proved:\n{"".join(told)}')
            finally:
                shutil.rmtree(kept, ignore_errors=True)
                if os.path.isdir(os.path.join(aside, 'incremental')):
                    shutil.move(os.path.join(aside, 'incremental'), kept)
        print(f'{crate}: {time.monotonic() - began:.1f} s')
        print(''.join(line for line in told if 'begins with' in line), end='')
        for name, total in seconds.most_common():
            if total >= 0.1:
                print(f'  {total:5.1f}  {name}')


main()
