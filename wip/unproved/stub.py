"""Writes assembly of calls that jump to those of a shared library, by the name real_NAME."""
import sys

for name in sys.argv[1:]:
    print(f'.globl {name}\n.type {name},@function\n{name}:\n  jmp *real_{name}@GOTPCREL(%rip)\n.size {name},.-{name}')
print('.section .note.GNU-stack,"",@progbits')
