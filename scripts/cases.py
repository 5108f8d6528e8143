#!/usr/bin/env python3
"""Runs the cases under tests/cases against a built command: each input goes in once, and what comes out is compared with what
was written down: the exit status, standard output, and the line on standard error. An output that is accepted is fed back
in, and has to give itself.

usage: cases.py [--renew] COMMAND [FILE..]

Each line of a file is a case, a JSON object:
  in      the input, or in64, the same in base64
  times   how many times that stands there, where it isn't once
  words   the command's words, where it has any; {file} stands for a file that holds the input
  status  the exit status
  out     standard output, where it isn't empty
  err     standard error, where it is compared
  note    what the case is for

The answers were made by tools/oracle, and those of by_hand.jsonl and left_out.jsonl by hand from the rules. With --renew nothing is compared: the answers of
COMMAND, which is then tools/oracle, are written into the files, all but these two where none is named.
The last line is `N passed, M failed`; the exit status is 0 where none failed."""
import base64
import concurrent.futures
import json
import os
import subprocess
import sys
import tempfile

import usage

HERE = os.path.join(os.path.dirname(os.path.abspath(__file__)), '..', 'tests', 'cases')
BY_HAND = ('by_hand.jsonl', 'left_out.jsonl')


def input_of(case):
    once = base64.b64decode(case['in64']) if 'in64' in case else case['in'].encode()
    return once * case.get('times', 1)


def answer(command, data, words):
    """Exit status, standard output and standard error of the command."""
    path = None
    if '{file}' in words:
        handle, path = tempfile.mkstemp()
        with os.fdopen(handle, 'wb') as file:
            file.write(data)
        words, data = [path if word == '{file}' else word for word in words], b''
    try:
        ran = subprocess.run([command, *words], input=data, capture_output=True, timeout=60)
        return ran.returncode, ran.stdout, ran.stderr
    except subprocess.TimeoutExpired:
        return None, b'', b''
    finally:
        if path:
            os.unlink(path)


def differences(command, case):
    """What differs, if anything does."""
    words, out = case.get('words', []), case.get('out', '').encode()
    status, text, line = answer(command, input_of(case), words)
    found = []
    if status != case['status']:
        found.append(f"status {status} and not {case['status']}")
    if text != out:
        found.append(f'the output is {text!r} and not {out!r}')
    if 'err' in case and line != case['err'].encode():
        found.append(f"the line on standard error is {line!r} and not {case['err']!r}")
    if not found and status == 0 and not words and answer(command, out, []) != (0, out, b''):
        found.append('the output does not give itself')
    return found


def renewed(command, case):
    """The case with the answer of the command."""
    status, text, line = answer(command, input_of(case), case.get('words', []))
    case = {**case, 'status': status, 'out': text.decode()}
    if 'err' in case:
        case['err'] = line.decode()
    if not text:
        del case['out']
    return case


def renew(command, path):
    """Writes the cases of a file anew, and gives how many changed."""
    with open(path, encoding='utf-8') as lines:
        cases = [json.loads(line) for line in lines]
    with concurrent.futures.ThreadPoolExecutor(os.cpu_count()) as pool:
        made = list(pool.map(lambda case: renewed(command, case), cases))
    changed = [at for at, case in enumerate(made) if case != cases[at]]
    if changed:
        with open(path, 'w', encoding='utf-8') as file:
            file.writelines(json.dumps(case, ensure_ascii=False) + '\n' for case in made)
    return len(changed)


def main():
    words = usage.words(__doc__, least=1, options=('--renew',))
    is_renewed = words[0] == '--renew'
    if is_renewed and len(words) == 1:
        usage.refuse(__doc__)
    command, *files = words[is_renewed:]
    command = os.path.abspath(command)
    if missing := [path for path in (command, *files) if not os.path.isfile(path)]:
        usage.refuse(__doc__, f"not there: {', '.join(missing)}")
    left = BY_HAND if is_renewed else ()
    files = files or sorted(os.path.join(HERE, name) for name in os.listdir(HERE) if name.endswith('.jsonl') and name not in left)
    if is_renewed:
        for path in files:
            print(f'{os.path.basename(path)}: {renew(command, path)} renewed')
        return 0
    passed = failed = 0
    for path in files:
        with open(path, encoding='utf-8') as lines:
            cases = [json.loads(line) for line in lines]
        with concurrent.futures.ThreadPoolExecutor(os.cpu_count()) as pool:
            for number, found in enumerate(pool.map(lambda case: differences(command, case), cases), 1):
                if found:
                    failed += 1
                    print(f'{os.path.basename(path)}:{number}: {"; ".join(found)}')
                else:
                    passed += 1
    print(f'{passed} passed, {failed} failed')
    return 1 if failed or not passed else 0


if __name__ == '__main__':
    sys.exit(main())
