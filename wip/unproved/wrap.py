"""Makes of the module of a program (LLVM's text) one of a static library: main goes, and the calls of station get
the C functions that `rt staticlib station` gives them."""
import re
import sys

source, target = sys.argv[1:3]
# Where a call's argument is a slice, the C function takes a pointer and a length.
CALLS = {
    "movesig_next_token": "i s i p",
    "movesig_next_comment": "i s i p",
    "movesig_read": "i i s i s p",
    "movesig_display": "i i s i s p",
    "movesig_carry": "s s p",
}
# Further calls: a line `NAME: i s i p` each, in the file that is the third word.
if len(sys.argv) > 3:
    for line in open(sys.argv[3]):
        name, _, words = line.partition(":")
        if words.strip():
            CALLS[name.strip()] = words.strip()


def wrapper(name, words):
    taken, body, given, next_argument, next_register = [], [], [], 0, 0
    for word in words.split():
        if word == "s":
            body += [
                f"  %r{next_register} = alloca [16 x i8], align 8",
                f"  store ptr %a{next_argument}, ptr %r{next_register}, align 8",
                f"  %r{next_register + 1} = getelementptr i8, ptr %r{next_register}, i64 8",
                f"  store i64 %a{next_argument + 1}, ptr %r{next_register + 1}, align 8",
            ]
            taken += [f"ptr noundef %a{next_argument}", f"i64 noundef %a{next_argument + 1}"]
            given.append(f"ptr %r{next_register}")
            next_argument, next_register = next_argument + 2, next_register + 2
        else:
            kind = {"i": "i64", "p": "ptr"}[word]
            taken.append(f"{kind} noundef %a{next_argument}")
            given.append(f"{kind} %a{next_argument}")
            next_argument += 1
    return "\n".join(
        [f"define noundef i32 @{name}({', '.join(taken)}) #0 {{", "start:"]
        + body
        + [
            f'  %r{next_register} = call i32 @"station::{name}"({", ".join(given)})',
            f"  ret i32 %r{next_register}",
            "}",
            "",
        ]
    )


text = open(source).read()
text = re.sub(r"(?ms)^define i32 @main\(\).*?^\}\n", "", text)
text = re.sub(r'(?ms)^define [^\n]*@"probe::main"\(.*?^\}\n', "", text)
kept = [wrapper(name, words) for name, words in sorted(CALLS.items()) if f'@"station::{name}"(' in text]
open(target, "w").write(text.replace("\nattributes #0", "\n" + "\n".join(kept) + "\nattributes #0", 1))
