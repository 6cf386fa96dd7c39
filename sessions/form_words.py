"""The table sessions/words-of-the-form.txt, for sessions/files: journal files with each of its rows, and with each word of a row changed."""
import os
import re

from journals import ROOT

TABLE = "sessions/words-of-the-form.txt"
ROW = re.compile(r"(old )?(\w+)(?: (\w+))? +(\{.*?\})(?: => (.*))?")
# A word is the name of a member, or a text that is neither a content nor a file's name.
WORD = re.compile(r'(?<!"content":)(?<!"file":)"(\w+)"')
CODE = re.compile(r'"code":(\d+)')
# What stands beside an ask or a reply of a row.
BESIDE = {
    "server": ('{"is":"crash"}', '{"is":"crashed"}'),
    "desk": ('{"is":"begin"}', '{"is":"txn","txn":1}'),
    "view": ('{"is":"mark","server":1,"up":true}', '{"is":"marked"}'),
}


def rows():
    """The rows: whether of format 1, the part or `file`, `ask`, `reply` or `entry`, the text, and as what it is written."""
    with open(f"{ROOT}/{TABLE}", encoding="utf-8") as it:
        for row in it:
            if row.strip() and not row.startswith("#"):
                old, part, kind, text, written = ROW.fullmatch(row.rstrip("\n")).groups()
                yield bool(old), part, kind, text, written or text


def file_with(form, part, kind, text):
    """A journal file in which this stands."""
    if part == "file":
        return text.encode() + b"\n"
    ask, reply = BESIDE[part]
    entry = {"entry": text, "ask": f'{{"ask":{text},"reply":{reply}}}', "reply": f'{{"ask":{ask},"reply":{text}}}'}[kind]
    lists = dict.fromkeys(BESIDE, "") | {part: entry}
    limits = '{"entries":1000000,"files":1000,"ops":64}'
    return f'{{"desk":[{lists["desk"]}],"format":{form},"levels":1,"limits":{limits},"servers":[[{lists["server"]}]],"view":[{lists["view"]}]}}\n'.encode()


def changed(text):
    """The text with one of its words or codes changed, each in turn."""
    for it in [*WORD.finditer(text), *CODE.finditer(text)]:
        instead = "20" if it[1].isdigit() else it[1][:-1] + "_"
        yield text[: it.start(1)] + instead + text[it.end(1) :]


def files():
    """What is put to the program: how it was made, the file, and as what it is written, None where it is unreadable."""
    for is_old, part, kind, text, written in rows():
        place = f"{'old ' * is_old}{part} {kind or ''} {text}"
        yield place, file_with(2 - is_old, part, kind, text), file_with(2, part, kind, written)
        for other in changed(text):
            yield f"{place} as {other}", file_with(2 - is_old, part, kind, other), None


def words_of(texts):
    return {it[1] for text in texts for it in [*WORD.finditer(text), *CODE.finditer(text)]}


def differing():
    """The words and codes that stand in the table or in docs/FORMAT.md alone; what hosts answer is no word of journal files."""
    with open(os.path.join(ROOT, "docs/FORMAT.md"), encoding="utf-8") as it:
        form = re.sub(r"(?s)\n## Lines of hosts\n.*?(?=\n## )", "", it.read())
    objects = re.findall(r"`(\{[^`]*\})`", form) + re.findall(r"(?s)```json\n(.*?)```", form)
    codes = {code for row in re.findall(r"(?m)^The codes of .*", form) for code in re.findall(r"[:,] (\d\d) ", row)}
    # The two words for reading and writing are both kinds and purposes, and FORMAT.md has some words in its text alone.
    return sorted(words_of(text for _, _, _, text, _ in rows()) ^ (words_of(objects) | codes))
