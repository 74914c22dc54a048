"""What is wrong with a line that is no request, and what was perhaps meant.

usage: python3 -m liq.why LINE
       python3 -m liq.why --line N FILE [--word run|serve|staking|rewards]

The line is one that `liq run` reads, `CLIENT NUMBER VERB WORDS` or `? QUERY WORDS`; with --line it is line N of a file,
or of standard input where that is `-`, and with --word one of that word. It writes the reason, and ends with 1; where
nothing is wrong it writes nothing, and ends with 0.
"""
import re
import sys
from typing import List, Optional

from .grammar import FORMS, LINE_BYTES_MOST, NAMES, NUMBER_MOST, QUERIES, Form, NoRequest
from .grammar import read_asked, read_number, read_request
from .journal import NO_HINT, VERBS

SHOWN_MOST = 40  # bytes of a word that are shown again
PLACES = {  # behind the point, of a whole ether, LUSD or 1
    **dict.fromkeys(("COLL", "COLL_IN", "COLL_OUT"), 9),
    **dict.fromkeys(("LUSD", "BORROW", "REPAY", "PRICE"), 6),
    "BOUND": 18,
}
UNITS = {9: "gwei", 6: "millionths of a LUSD", 18: "parts of 10^18"}
AMOUNT = re.compile(r"([0-9]*\.?[0-9]+)\.?\s*(ether|eth|gwei|lusd|%|)", re.IGNORECASE | re.ASCII).fullmatch
MARKS = {"\ufeff": "a byte order mark", "\xef\xbb\xbf": "a byte order mark", "$ ": "a prompt", "> ": "a prompt"}
ENDS = {
    "\r": "a carriage return stands at its end, as in a file from Windows: tr -d '\\r' takes them out",
    ";": "a semicolon stands at its end: a line ends with its last word",
    ",": "a comma stands at its end: a line ends with its last word",
}
EXAMPLES = """
python3 -m liq.why '1 2 open 1 10ether 4000lusd any - -'
python3 -m liq.why --line 3 lines
"""


def why(line: str) -> str:
    """Why a line is no request; nothing where it is one."""
    try:
        read_request(line)
    except NoRequest:
        return why_form(line) or (why_query(line) if line.startswith("?") else why_command(line))
    return ""


def why_call(call: str) -> str:
    """The same of a command without its client and number: a verb and its words."""
    try:
        read_request(f"0 0 {call}")
    except NoRequest:
        return why_form(call) or why_verb(call.split(" "))
    return ""


def why_asked(word: str, line: str) -> str:
    """The same of a line of the word `serve`, `staking` or `rewards`."""
    if word == "serve":
        return why_session(line)
    if word not in FORMS:
        return why(line)
    try:
        read_asked(word, line)
    except NoRequest:
        return why_form(line) or why_asked_words(line.split(" "), FORMS[word])
    return ""


def why_session(line: str) -> str:
    """What is wrong with a line of `serve`."""
    session, space, rest = line.partition(" ")
    said = why_form(line)
    if said:
        return said
    if len(session) != 1 or session not in "12345678":
        return f"a session from 1 to 8 stands in front of a line of serve, and here {shown(session)}"
    return why(rest) if space else "a request stands behind the session"


def why_asked_words(words: List[str], form: Form) -> str:
    """What is wrong with the words of a line that is to have a form."""
    told = form.names.split(" ")
    if len(words) != len(told):
        return f"{form.names} has {len(told)} words, and the line {len(words)}"
    at = form.letters.index("w")
    if words[at] not in form.verbs:
        return f"{shown(words[at])} stands where {' or '.join(form.verbs)} does: {form.names}"
    most = {"v": NUMBER_MOST, "a": NO_HINT}
    for word, name, letter in zip(words, told, form.letters):
        if letter != "w":
            said = why_number(word, name, most[letter])
            if said:
                return said
    return ""


# ---- the form of the whole


def why_form(line: str) -> str:
    """What is wrong with a line whatever its words are."""
    for mark, name in MARKS.items():
        if line.startswith(mark):
            return f"{name} stands in front"
    if not line.strip("\r"):
        return "it is empty" + (": a carriage return alone" if line else "")
    if line[-1] in ENDS:
        return ENDS[line[-1]]
    if line.lstrip().startswith(("#", "//")):
        return "it is a comment: a line has a request and nothing else"
    if line[0] in "'\"":
        return "it stands in quotes: they belong to the shell"
    if len(line) > LINE_BYTES_MOST:
        return f"it has more than {LINE_BYTES_MOST} bytes"
    if "\t" in line:
        return "a tab stands in it: one space stands between two words"
    strange = next((letter for letter in line if not " " <= letter <= "~"), None)
    if strange is not None:
        return f"{ascii(strange)} stands in it: a line has letters, digits and signs of ASCII alone"
    if line.startswith(" ") or line.endswith(" "):
        return f"a space stands at its {'begin' if line.startswith(' ') else 'end'}"
    if "  " in line:
        return "two spaces stand together: one space stands between two words"
    return ""


# ---- queries and commands


def why_query(line: str) -> str:
    """What is wrong with a query."""
    words = line.split(" ")
    if words[0] != "?":
        return f"a space stands behind the question mark: ? {line[1:].strip()}"
    if len(words) == 1:
        return f"a query has a name: {', '.join(QUERIES)}"
    name, given = words[1], words[2:]
    if name not in QUERIES:
        if name in VERBS:
            return f"{name} is a verb, and no query: no question mark stands in front of it"
        return unknown(name, "query", list(QUERIES))
    return why_words(name, given, f"? {name}", ["a"] * QUERIES[name])


def why_command(line: str) -> str:
    """What is wrong with a command."""
    words = line.split(" ")
    if words[0] in QUERIES and len(words) <= 2:
        return f"{words[0]} is a query, which begins with a question mark: ? {line}"
    at = next((at for at, word in enumerate(words[:2]) if is_name(word)), None)
    if at is not None:
        verb = words[at].lower()
        if verb not in VERBS:
            return f"{shown(words[at])} stands where a number does: CLIENT NUMBER VERB WORDS, or ? QUERY WORDS"
        missing = "CLIENT and NUMBER stand" if at == 0 else "CLIENT or NUMBER is missing, which stand"
        return f"{missing} in front of the verb: {command_form(verb)}"
    for word, name, most in zip(words, ("CLIENT", "NUMBER"), (NO_HINT, NUMBER_MOST)):
        said = why_number(word, name, most)
        if said:
            return said
    if len(words) < 3:
        return "a verb is missing: CLIENT NUMBER VERB WORDS, or ? QUERY WORDS"
    return why_verb(words[2:])


def is_name(word: str) -> bool:
    """Whether a word looks like a verb's name, and not like a number."""
    return re.fullmatch("[A-Za-z][A-Za-z_-]*", word) is not None


def why_verb(words: List[str]) -> str:
    """What is wrong with a verb and the words behind it."""
    verb, *given = words
    if verb not in VERBS:
        if verb in QUERIES:
            return f"{verb} is a query, and no verb: ? {verb} {NAMES[verb]}".rstrip()
        if re.fullmatch("[0-9]+", verb):
            return f"a verb belongs where {shown(verb)} stands"
        return unknown(verb, "verb", list(VERBS))
    if f"{verb}_{given[0] if given else ''}" in VERBS:
        return f"the verb is one word: {verb}_{given[0]}"
    return why_words(verb, given, verb, list(VERBS[verb]))


def unknown(name: str, what: str, names: List[str]) -> str:
    """That a name is none, and which one was perhaps meant."""
    import difflib  # only here: it takes longer than all the rest

    near = difflib.get_close_matches(name.lower().replace("-", "_"), names, 1)
    meant = f": {near[0]}?" if near else f", which are: {', '.join(names)}"
    return f"{shown(name)} is no {what}{meant}"


def why_words(name: str, given: List[str], told: str, letters: List[str]) -> str:
    """What is wrong with the words behind a verb or a query."""
    names = NAMES[name].split()
    for word, called, letter in zip(given, names, letters):
        if letter != "h" or word != "-":
            said = why_number(word, called, NUMBER_MOST if letter == "v" else NO_HINT)
            if said:
                return said
    if len(given) != len(names):
        takes = ", ".join([f"{told} takes {counted(len(names))}", *([NAMES[name]] if names else [])])
        return f"{takes}, and has {len(given) or 'none'}{left_out(given, names)}"
    return ""


def counted(count: int) -> str:
    """So many words."""
    return "no word" if count == 0 else "one word" if count == 1 else f"{count} words"


def left_out(given: List[str], names: List[str]) -> str:
    """Which words are missing or too many."""
    if len(given) > len(names):
        return f": {shown(' '.join(given[len(names) :]))} is too much"
    missing = names[len(given) :]
    said = f": {' '.join(missing)} {'is' if len(missing) == 1 else 'are'} missing"
    return said + ("; - says no hint" if "HINT" in missing else "")


def command_form(verb: str) -> str:
    """How a command of a verb is written."""
    return f"CLIENT NUMBER {verb} {NAMES[verb]}".rstrip()


# ---- numbers


def why_number(word: str, name: str, most: int) -> str:
    """What is wrong with a word that is to be a number."""
    try:
        read_number(word, most)
        return ""
    except NoRequest:
        pass
    if re.fullmatch("[0-9]+", word):
        if word[0] == "0":
            return f"{name} {shown(word)} has a zero in front: {word.lstrip('0') or '0'}"
        return f"{name} {shown(word)} is too large: it is at most {most}"
    told = f"{name} is {shown(word)}: "
    if word == "-":
        return told + "a hyphen stands for a hint alone"
    if word == "any" and name == "BOUND":
        return told + "any fee is 1000000000000000000"
    if name == "HINT":
        return told + "a hint is an account, or - where there is none"
    if word[:1] in "-+":
        return told + "a number has no sign"
    return told + "a number has digits alone" + meant(word, name)


def meant(word: str, name: str) -> str:
    """What a number was perhaps meant to be, in the unit of its name."""
    from decimal import Decimal  # only here, as above

    found = AMOUNT(re.sub("[,_']", "", word))
    places = PLACES.get(name)
    if not found:
        return ""
    value, unit = Decimal(found[1]), found[2].lower()
    if unit == "gwei" or unit == "" and places is None:
        places, unit = 0, ""
    elif unit == "%":
        places = 16 if name == "BOUND" else None
    elif unit:
        places = {"ether": 9, "eth": 9, "lusd": 6}[unit]
    elif "." not in word:
        places = 0  # separators alone were in it
    if places is None:
        return ""
    whole = value.scaleb(places)
    if whole != int(whole) or whole >= 2**64:
        return f", and {name} at most {places} places behind the point" if places else ""
    if not places:
        return f": {int(whole)}"
    return f": {found[1]}{' ' * (unit not in ('', '%'))}{unit} is {int(whole)} {UNITS.get(places, UNITS[18])}"


def shown(word: str) -> str:
    """A word as it may be shown: in quotes, short, and of ASCII alone."""
    return ascii(word if len(word) <= SHOWN_MOST else word[:SHOWN_MOST] + "..")


# ---- the command


def line_of(path: str, number: int) -> Optional[str]:
    """A line of a file, or of standard input; None where there are not as many."""
    file = sys.stdin.buffer if path == "-" else open(path, "rb")
    with file:
        for at, line in enumerate(file, 1):
            if at == number:
                return (line[:-1] if line.endswith(b"\n") else line).decode("latin-1")
    return None


def print_first(path: str, word: str) -> None:
    """Writes why the first line of a file that the word can't read is none of its lines."""
    with open(path, "rb") as file:
        for at, line in enumerate(file, 1):
            said = why_asked(word, (line[:-1] if line.endswith(b"\n") else line).decode("latin-1"))
            if said:
                print(f"line {at}: {said}")
                return


def main(words: List[str]) -> int:
    from .console import parser_of  # a caller of `why` needs none

    parser = parser_of("why", __doc__, EXAMPLES)
    parser.add_argument("text", metavar="LINE|FILE", help="a line, or with --line a file")
    parser.add_argument("--line", metavar="N", help="line N of the file, counted from 1; `first`: the first that is no request")
    parser.add_argument("--word", choices=("run", "serve", *FORMS), default="run", help="the word that reads it")
    asked = parser.parse_args(words)
    line: Optional[str] = asked.text
    if asked.line is not None:
        try:
            if asked.line == "first":
                print_first(asked.text, asked.word)
                return 1
            line = line_of(asked.text, int(asked.line))
        except OSError as fault:
            parser.error(f"{asked.text} can't be read: {fault.strerror}")
        if line is None:
            parser.error(f"{asked.text} has no line {asked.line}")
    said = why_asked(asked.word, line or "")
    if said:
        print(said)
    return 1 if said else 0


def command() -> int:
    """The command, with the words of its process."""
    from .console import as_process  # as above

    return as_process(main)


if __name__ == "__main__":
    sys.exit(command())
