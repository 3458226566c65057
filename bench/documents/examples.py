"""Runs the examples of the documents. See `run` beside this file."""
import os, re, subprocess, sys

PROGRAM, TOP, *NAMED = sys.argv[1:]
WIDTH = 160
CLUSTER = """version = 2

[[kernel]]
name = "c1"

[[kernel]]
name = "c2"

[[kernel]]
name = "s1"
serves = ["/"]

[[program]]
name = "p"
text = '''
%s'''

[[start]]
host = "c1"
program = "p"
"""
CALLS = ("print exit getpid getppid host tick fork exec wait kill migrate rexec open stat mkdir rmdir unlink rename list chdir pd_make close dup read "
         "write seek size sync pd_get pd_put ioctl").split()
INSTRUCTIONS = "set mov addi add sub mul div mod ldb stb ldw stw jmp jeq jne jlt sys".split()
wrong = []


def tell(place, text):
    wrong.append(place)
    print(f"{place}: {text}", flush=True)


def sprite(words, text):
    done = subprocess.run([PROGRAM, *words], input=text, capture_output=True, text=True)
    return done.stdout


def blocks(text):
    """Each fenced block: the line on which it begins, what stands behind the fence, and its lines."""
    inside, found = None, []
    for number, line in enumerate(text.splitlines(), 1):
        if line.startswith("```"):
            if inside is None:
                inside = (number, line[3:].strip(), [])
            else:
                found.append(inside)
                inside = None
        elif inside is not None:
            inside[2].append(line)
    return found


def run_examples(name, text):
    """A program or a cluster, and what it prints: `output WORDS`, or of a file of the repository `output WORDS < FILE`."""
    last, texts, counts = None, [], 0
    for number, info, lines in blocks(text):
        body = "".join(line + "\n" for line in lines)
        place = f"{name}:{number}"
        if info == "program":
            last = CLUSTER % body
            texts.append(body)
        elif info == "cluster":
            last = body
        elif info.startswith("output"):
            words, _, file = info[len("output"):].partition("<")
            given = open(os.path.join(TOP, file.strip())).read() if file else last
            said = sprite(words.split() or ["run"], given)
            counts += 1
            if said != body:
                tell(place, f"printed is\n{said}")
        elif info:
            tell(place, f"a block of an unknown kind, {info}")
    return texts, counts


def check_words(name, texts):
    """Each instruction and each call stands in an example of the page."""
    lines = [line.split() for text in texts for line in text.splitlines()]
    for word in INSTRUCTIONS:
        if not any(line[:1] == [word] for line in lines):
            tell(name, f"no example has the instruction {word}")
    for word in CALLS:
        if not any(line[:2] == ["sys", word] for line in lines):
            tell(name, f"no example has the call {word}")


def check_tour(name, text):
    """What the tour says to look for is there: the parts of a phrase stand in a line of the output, the history or the trace."""
    rows = re.findall(r"^\| `(\w+)` \| [^|]* \| ([^|]*) \|$", text, re.M)
    for example, look in rows:
        with open(os.path.join(TOP, "examples", example + ".toml")) as it:
            file = it.read()
        wanted = [phrase for phrase in re.findall(r"`([^`]*)`", look) if not phrase.startswith("/")]
        for words in ("run", "history", "trace"):
            if wanted:
                lines = sprite([words], file).splitlines()
                wanted = [phrase for phrase in wanted if not any(stands_in(phrase, line) for line in lines)]
        for phrase in wanted:
            tell(f"{name} {example}", f"`{phrase}` isn't there")
    return len(rows)


def stands_in(phrase, line):
    """Whether the words of the phrase stand in the line, in their order, with others for each ` .. `."""
    form = ".*".join(r"(?<!\w)" + re.escape(part) + r"(?!\w)" for part in phrase.split(" .. "))
    return re.search(form, line) is not None


def check_names(name, text):
    """Lines are short, and what is named as a file of the repository is one, but for what is built and for `NAME` and the like."""
    for number, line in enumerate(text.splitlines(), 1):
        if len(line) > WIDTH:
            tell(f"{name}:{number}", f"{len(line)} characters")
        for path in re.findall(r"`((?:crates|docs|examples|bench)/[\w./-]*\w)`", line):
            stands_for_others = {"NAME", "CRATE", "PART", "out"} & set(path.split("/"))
            if not stands_for_others and not os.path.exists(os.path.join(TOP, path)):
                tell(f"{name}:{number}", f"{path} isn't there")


def main():
    names = NAMED or ["README.md"] + sorted("docs/" + name for name in os.listdir(os.path.join(TOP, "docs")) if name.endswith(".md"))
    for name in names:
        with open(os.path.join(TOP, name)) as it:
            text = it.read()
        texts, counts = run_examples(name, text)
        rows = check_tour(name, text) if name == "docs/TOUR.md" else 0
        if name == "docs/LANGUAGE.md":
            check_words(name, texts)
        check_names(name, text)
        if counts or rows:
            print(f"{name}: {counts} outputs, {rows} rows of the tour")
    print("all as told" if not wrong else f"{len(wrong)} otherwise")
    sys.exit(1 if wrong else 0)


main()
