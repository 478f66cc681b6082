"""The messages of runs/worked, which were made by hand from 004, as lines for the program `worked` and what it must answer.

It knows the frame (start, Length, header, map, checksum) and nothing of any field: what must be answered stands in the files.
tools/runs runs the lines; sample_day.py joins messages of the same files.
"""
import pathlib
import re
import sys

ROOT = pathlib.Path(__file__).resolve().parent.parent
# A part's lines fit into the program's buffer of 65,536 bytes.
LIMIT = 65536
KEYS = ('message', 'type', 'number', 'flags', 'comp', 'compraw', 'more', 'plain', 'gives')

def crc32c(data):
    r = 0xFFFFFFFF
    for b in data:
        r ^= b
        for _ in range(8):
            r = (r >> 1) ^ 0x82F63B78 if r & 1 else r >> 1
    return r ^ 0xFFFFFFFF

def unhex(text):
    out = b''
    for word in text.split():
        pair, _, times = word.partition('*')
        out += bytes.fromhex(pair) * (int(times) if times else 1)
    return out

def blocks(name):
    """The file as (part, [lines]); a line is (first word, second column, remark)."""
    part, found = None, []
    for line in open(ROOT / 'runs' / 'worked' / name, encoding='ascii'):
        line = line.rstrip()
        if not line or line.startswith('#'):
            continue
        key, rest = (re.split(r' +', line, maxsplit=1) + [''])[:2]
        value, remark = (re.split(r' {2,}', rest, maxsplit=1) + [''])[:2]
        if key == 'part':
            part = value
        elif key in ('message', 'damaged'):
            found.append((part, [(key, value, remark)]))
        else:
            found[-1][1].append((key, value, remark))
    return found

def must(true, what):
    if not true:
        sys.exit('wrong in the files: ' + what)

def join(lines):
    """One message block: its bytes, and the answer to read."""
    it = {k: v for k, v, _ in lines}
    name, mapped, body, last = it['message'], bytearray(32), b'', -1
    for key, value, remark in lines:
        if not key.isdigit():
            must(key in KEYS, f'{name}: {key}')
            continue
        width = re.match(r'\[([0-9+]+)\]', remark)
        data = unhex(value)
        must(width and sum(map(int, width[1].split('+'))) == len(data), f'{name} {key}: {len(data)} bytes')
        must(last < int(key) < 256, f'{name} {key}: positions do not rise')
        last = int(key)
        mapped[last // 8] |= 128 >> last % 8
        body += data
    comp = it['comp'].encode('ascii')
    raw = unhex(it['compraw']) if 'compraw' in it else comp + bytes(12 - len(comp))
    must(len(raw) == 12 and raw.startswith(comp + b'\0'), name + ' comp')
    dup, resend = map(int, it['flags'].split())
    size = 54 + len(body) + 4
    data = (b'\x02' + size.to_bytes(2, 'little') + bytes([int(it['type'])]) + int(it['number']).to_bytes(4, 'little')
            + bytes([dup, resend]) + raw + mapped + body)
    answer = (f"type {it['type']} number {it['number']} possdup {dup} possresend {resend} length {size} comp {it['comp']}"
              + (' ' + it['more'] if 'more' in it else ''))
    return data + crc32c(data).to_bytes(4, 'little'), answer

def change(data, lines):
    """The changes of one damaged block, in their order."""
    data = bytearray(data)
    for key, value, _ in lines:
        words = value.split()
        if key == 'byte':
            new = unhex(' '.join(words[2:]))
            must(words[1] == '=' and int(words[0]) + len(new) <= len(data), f'{lines[0][1]}: {value}')
            data[int(words[0]):int(words[0]) + len(new)] = new
        elif key == 'insert':
            data[int(words[0]):int(words[0])] = unhex(' '.join(words[1:]))
        elif key == 'drop':
            del data[int(words[0]):int(words[0]) + int(words[1])]
        elif key == 'cut':
            del data[int(words[1]):]
        elif key == 'append':
            data += unhex(value)
        elif key == 'sum':
            over = data[:-4] if value == 'right' else data[int(words[1]):int(words[2])]
            data[-4:] = crc32c(over).to_bytes(4, 'little')
        else:
            must(key in ('damaged', 'from', 'refused', 'same'), f'{lines[0][1]}: {key}')
    return bytes(data)

def shown(text):
    """A text as `worked` prints it: Latin-1, but what would steer a terminal is spelt in hexadecimal, and a backslash doubled."""
    def one(b):
        return '\\\\' if b == 92 else f'\\x{b:02X}' if b < 32 or 127 <= b < 160 else chr(b)
    return ''.join(map(one, text))

def say(kind, position, data, answer):
    """The one place that knows the test program's lines: a question and its answer."""
    ask = kind if position is None else f'{kind} {position}'
    if answer[0] == 'refused':
        reply = f"refused {answer[1]} besides {0 if answer[2] == '-' else answer[2]}" + (' []' if kind == 'text' else '')
    elif answer[0] == 'text':
        reply = f"text of {len(answer[1])} [{shown(answer[1])}]"
    elif answer[0] == 'plain':
        reply = answer[1].hex()
    else:
        reply = ' '.join(answer)
    return f'{ask} {data.hex()}', reply

def questions(name, lines, made):
    """The questions of one message block."""
    data, answer = made[name]
    out = [say('read', None, data, [answer])]
    fields = {k for k, _, _ in lines if k.isdigit()}
    for key, value, remark in lines:
        if key == 'plain':
            out.append(say('plain', None, data, ['plain', made[value][0]]))
        if key != 'gives':
            continue
        place, what, *rest = value.split()
        if what in ('number', 'decimal'):
            out.append(say('number', place, data, [what, rest[0]]))
            fields.discard(place)
        elif what == 'text':
            text = b'' if rest == ['-'] else unhex(' '.join(rest))
            must(not remark.startswith('"') or remark == '"' + text.decode('ascii') + '"', f'{name} gives {place}')
            out.append(say('text', place, data, ['text', text]))
            fields.discard(place)
        elif what == 'other-text':
            out.append(say('text', place, data, ['refused', 14, 0]))
        elif what == 'other-number':
            out.append(say('number', place, data, ['refused', 14, 0]))
        else:
            no, besides = {'absent': (13, 0), 'unknown': (7, place)}[what]
            out += [say(kind, place, data, ['refused', no, besides]) for kind in ('number', 'text')]
    must(not fields, f'{name} gives nothing for {sorted(fields)}')
    return out

def damaged(lines, made):
    """The questions of one damaged block: it is refused whatever is asked, or read as the message it was made from."""
    it = {k: v for k, v, _ in lines}
    data = change(made[it['from']][0], lines)
    if 'same' in it:
        return [say('read', None, data, [made[it['from']][1]])]
    answer = ['refused'] + it['refused'].split()
    return [say('read', None, data, answer), say('number', 255, data, answer), say('text', 0, data, answer)]

def parts():
    """Each part's name and its messages: a message is its name and its lines, each with the answer that must be given."""
    must(crc32c(b'123456789') == 0xE3069283, 'CRC32C')
    made, found = {}, {}
    messages = blocks('messages.txt')
    for _, lines in messages:
        must(lines[0][1] not in made, lines[0][1] + ' twice')
        made[lines[0][1]] = join(lines)
    for part, lines in messages:
        found.setdefault(part, []).append((lines[0][1], questions(lines[0][1], lines, made)))
    for part, lines in blocks('damaged.txt'):
        found.setdefault(part, []).append((lines[0][1], damaged(lines, made)))
    for part, cases in found.items():
        size = sum(len(q) + 1 for _, out in cases for q, _ in out) + sum(len(name) + 3 for name, _ in cases)
        must(size < LIMIT, f'{part} is {size} bytes')
    return found.items()
