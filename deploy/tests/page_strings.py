"""The strings of the page: complete in each language, none unused, none in other files."""
import json
import os
import re

from harness import check
from stack import DEPLOY

PAGE = os.path.join(DEPLOY, "page")
LANGUAGES = {"en": "messages.js", "de": "de.js"}
REGISTERS = {"Shares checked"}      # words of the register's own texts


def source(name):
    with open(os.path.join(PAGE, name), encoding="utf-8") as it:
        return it.read()


def strings(language):
    """Reads a file of strings: an object of texts and of pairs of texts, and tables of texts by number."""
    text = re.sub(r"^//.*$", "", source(LANGUAGES[language]), flags=re.M)
    found = {}
    for table, kind in re.findall(r'^  \.\.\.numbered\("(\w+)", (\w+)\)', text, flags=re.M):
        block = re.search(rf"export const {kind} = \{{(.*?)\n\}};", text, re.S)[1]
        found.update({f"{table}.{number}": words for number, words in re.findall(r'(\d+): "([^"]*)"', block)})
    block = re.search(rf"export const {language} = (\{{.*\}});", text, re.S)[1]
    block = re.sub(r"^  \.\.\..*$", "", block, flags=re.M)
    block = re.sub(r"\b(one|other): ", r'"\1": ', block)
    return {**json.loads(re.sub(r",(\s*})", r"\1", block)), **found}


def places(value):
    return set(re.findall(r"\{(\w+)\}", json.dumps(value)))


def modules():
    return [name for name in sorted(os.listdir(PAGE)) if name.endswith(".js") and name not in LANGUAGES.values()]


def run():
    first, *others = (strings(one) for one in LANGUAGES)
    for language, other in zip([*LANGUAGES][1:], others):
        check(f"the keys of {language} are those of {[*LANGUAGES][0]}", set(first) == set(other),
            set(first) ^ set(other))
        different = [key for key in first if key in other and places(first[key]) != places(other[key])]
        check(f"the places of {language} are the same", not different, different)
        same = [key for key in first if first[key] == other.get(key) and not key.startswith("csv.")
            and re.search("[a-z]{3}", str(first[key]))]
        check(f"the texts of {language} are translated", len(same) < 12, same)
    text = "".join(source(name) for name in modules()) + source("index.html")
    prefixes = tuple(set(re.findall(r'"([a-z]+\.(?:[a-zA-Z]+\.)*)" ?\+', text)) | {"rule.", "refusal.",
        "fault.", "start.", "field.pick."})
    used = set(re.findall(r'"#?([a-z]+\.[a-zA-Z0-9.]+)"', text)) | set(re.findall(r'\bt\("(\w+)"', text))
    unused = [key for key in first if key not in used and not key.startswith(prefixes)]
    check("no string is unused", not unused, unused)
    missing = [key for key in used
        if re.match(r"(app|act|field|form|draw|error|sheet|history|map|plan|col|one|many|work|list|page)\.",
            key) and
               key not in first and not key.endswith((".", ".js", ".css"))]
    check("no string is missing", not missing, missing)
    found = []
    for name in modules():
        for number, line in enumerate(source(name).splitlines(), 1):
            plain = re.sub(r"//.*$", "", line)
            words = re.findall(r'"([A-Z][a-z]+ [a-z]+[^"]*)"', plain)
            found += [f"{name}:{number}: {one}" for one in words if one not in REGISTERS]
    check("no text is in another file than those of the languages", not found, found)
