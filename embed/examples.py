"""examples.py README ROOM: writes each example of README to ROOM, and what it says that it prints.

An example is a block of C, C++ or Rust. What it prints is the text behind `// prints: `.
"""
import re
import sys

readme, room = sys.argv[1:]
ENDS = {'c': 'c', 'cpp': 'cpp', 'rust': 'rs'}
with open(readme, encoding='utf-8') as file:
    blocks = re.findall(r'^```(c|cpp|rust)\n(.*?)^```', file.read(), re.M | re.S)
for number, (language, text) in enumerate(blocks, 1):
    with open(f'{room}/example{number}.{ENDS[language]}', 'w', encoding='utf-8') as file:
        file.write(text)
    with open(f'{room}/example{number}.stdout', 'w', encoding='utf-8') as file:
        file.write(''.join(it + '\n' for it in re.findall(r'// prints: (.*)', text)))
