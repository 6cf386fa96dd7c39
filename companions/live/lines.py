"""The lines of `tq shell` as forms of words, and what is wrong with a line that is none of them."""
import difflib
import re

FORMS = {
    "begin": [""], "read": ["T F"], "write": ["T F TEXT"], "commit": ["T"], "abort": ["T"],
    "prepare": ["T S", "T S crash K"], "decide": ["T"], "apply": ["T S", "T S crash K"], "resolve": ["T"],
    "down": ["S"], "up": ["S"], "cost": ["S C", "S R W"], "choose": ["", "read|write"], "board": [""], "refresh": [""],
}  # fmt: skip
MOST_BYTES, MOST_TEXT, MOST_NUMBER, MOST_RECORDS = 4_200, 4_000, 2**64 - 1, 2**32 - 1


def wrong_word(line):
    """What makes this line, which is not empty, none of the shell's; None where it is one."""
    line = line.removesuffix("\r")
    data = line.encode("utf-8", "surrogateescape")
    if len(data) > MOST_BYTES:
        return f"the line has {len(data)} bytes, at most {MOST_BYTES}"
    odd = re.search(rb"[^ -~]", data)
    if odd:
        return f"byte {odd.start() + 1} of the line is not printable ASCII"
    first, *words = line.split(" ")
    if first not in FORMS:
        near = difflib.get_close_matches(first, FORMS, 1)
        return f'"{short(first)}" begins no line' + (f', "{near[0]}" does' if near else "")
    if first == "write" and len(words) > 1:
        # TEXT is all that follows, which may be nothing.
        words[2:] = [" ".join(words[2:])]
    return wrong_in(first, words)


def wrong_in(first, words):
    """What is wrong with the words behind the first."""
    forms = [form.split() for form in FORMS[first]]
    form = min(forms, key=lambda it: (abs(len(it) - len(words)), -sum(not fault(*one) for one in zip(it, words))))
    usage = " ".join([first, *form])
    for kind, word in zip(form, words):
        wrong = fault(kind, word)
        if wrong:
            return f'"{short(word)}" {wrong}: {usage}'
    if len(words) < len(form):
        return f"{form[len(words)]} is missing: {usage}"
    return f'"{short(words[len(form)])}" is too much: {usage}' if len(words) > len(form) else None


def fault(kind, word):
    """Why the word does not stand for what the form has there, None where it does."""
    if kind == "TEXT":
        return f"has {len(word)} bytes, at most {MOST_TEXT}" if len(word) > MOST_TEXT else None
    if word == "":
        return "is no word, words have one space between them"
    if kind == "F":
        return None if re.fullmatch("[a-z][a-z0-9._-]{0,31}", word) else "is no file name (1 to 32 of a-z 0-9 . _ -, a letter first)"
    if kind.isupper():
        most = MOST_RECORDS if kind == "K" else MOST_NUMBER
        return None if re.fullmatch("0|[1-9][0-9]{0,19}", word) and int(word) <= most else "is no number (digits, no sign, no zero in front)"
    return None if word in kind.split("|") else f"is not {kind.replace('|', ' or ')}"


def short(word):
    return word if len(word) <= 24 else word[:22] + ".."
