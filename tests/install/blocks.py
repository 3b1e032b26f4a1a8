"""blocks.py SOURCE [NAME FILE]..: that each array of this name in a C source, of a block in hexadecimal, has the bytes of the file. It
tells every difference."""
import re
import sys

source = open(sys.argv[1], encoding='utf-8').read()
for name, file in zip(sys.argv[2::2], sys.argv[3::2]):
    text = re.search(r'char %s\[\] =((?:\s*"[0-9a-f]*")*);' % name, source)
    if text is None or bytes.fromhex(''.join(re.findall('[0-9a-f]+', text.group(1)))) != open(file, 'rb').read():
        print('%s is not %s' % (name, file))
