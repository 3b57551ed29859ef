#!/usr/bin/env python3
"""Has the checker compute, from the definitions of `model`, the answer of every service on outside vectors.

usage: tests/vectors.py FOLDER [--most BYTES] [--only NAME ...]

FOLDER holds one folder for each set of texts: book.txt, rules.txt, query.txt, request.txt. The answers stand in list.out (what the list
program prints), readers.out (a line for each reader) and, where the query writer accepts, write.out; or, in folders of a stage of document
02, in a file for each call, COMMAND.out or COMMAND-NUMBERS.out. Sets whose four texts have more than BYTES bytes together (1500 if not
given) are left out. A scratch repository is made below the system's temporary folder, with two theorems for each set (readers and writers;
lists and the lamp), proved by computation alone. Sets whose theorem is refused are listed; so are lists that have more mappings to try than the checker's
limit of steps allows. No part of the gate.
"""
import os, re, shutil, subprocess, sys, tempfile

ROOT = os.path.dirname(os.path.dirname(os.path.abspath(__file__)))
TEXTS = ["book.txt", "rules.txt", "query.txt", "request.txt"]

# What readers.out says, as a definition over the services' answers.
SHOWN = '''-- The answers of the services, as the vectors' files write them.
use Rattle.std.specs.Prelude.{ℕ, List, [], ◌∷◌, ◌++◌, map, not}
use Rattle.model.specs.Bytes.{Bytes, bytes_of}
use Rattle.model.specs.Lists.{joined, keep}
use Rattle.model.specs.Names.{place}
use Rattle.model.specs.Refusal.{Refusal, Outcome, accepted, refused}
use Rattle.model.specs.Book.{Book, attr_names}
use Rattle.model.specs.ReadBook.{read_book}
use Rattle.model.specs.Pattern.{Pattern, Edge, Clause, excluded, vertex_has, edge_has}
use Rattle.model.specs.Weave.{is_excluded}
use Rattle.model.specs.Writing.{digits, relation_text, value_text}
use Rattle.model.specs.Request.{Identity}
use Rattle.model.specs.Service.{BookAnswer, RulesAnswer, RequestAnswer, book_service, rules_service, query_service, request_service, writer_text, book_written}
use Rattle.model.specs.Service.{list_rows, lamp_service}
use Rattle.model.specs.Renaming.{renamed_book}
use Rattle.model.specs.Tidy.{tidy_book}
use Rattle.model.specs.Printed.{refusal_text, outcome_text, names_of, lamp_text, book_text}

unfoldable pub number : ℕ → Bytes
number n = digits 20 n

unfoldable pub spaced : List Bytes → Bytes
spaced [] = []
spaced (t ∷ ts) = 32 ∷ t ++ spaced ts

unfoldable pub listed : Bytes → List Bytes → Bytes
listed head ts = bytes_of "(" ++ head ++ spaced ts ++ bytes_of ")"

unfoldable pub bracket : List Bytes → Bytes
bracket [] = bytes_of "()"
bracket (t ∷ ts) = bytes_of "(" ++ t ++ spaced ts ++ bytes_of ")"

unfoldable pub clause_shown : Book → Clause → Bytes
clause_shown b (excluded u v) = bracket (number u ∷ number v ∷ [])
clause_shown b (vertex_has v a r x) = bracket (bytes_of "v" ∷ number v ∷ number (place a (attr_names b.vattrs)) ∷ relation_text r ∷ value_text x ∷ [])
clause_shown b (edge_has e a r x) = bracket (bytes_of "e" ∷ number e ∷ number (place a (attr_names b.eattrs)) ∷ relation_text r ∷ value_text x ∷ [])

unfoldable pub pattern_shown : Book → Pattern → Bytes
pattern_shown b p =
    listed (bytes_of "query")
    (listed (bytes_of "vertices") p.vertices
    ∷ listed (bytes_of "edges") (map (λ e. bracket (e.name ∷ number (place e.label b.labels) ∷ number e.from ∷ number e.to ∷ [])) p.edges)
    ∷ listed (bytes_of "exclusions") (map (clause_shown b) (keep is_excluded p.clauses))
    ∷ listed (bytes_of "requirements") (map (clause_shown b) (keep (λ c. not (is_excluded c)) p.clauses))
    ∷ listed (bytes_of "return") (map number p.returns)
    ∷ [])

unfoldable pub outcome_shown : {A : Type 0} → Bytes → (A → Bytes) → Outcome A → Bytes
outcome_shown name f (accepted a) = f a ++ bytes_of "\\n"
outcome_shown name f (refused r) = name ++ bytes_of " " ++ refusal_text r

unfoldable pub book_of : Outcome Book → (Book → Pattern → Bytes) → Pattern → Bytes
book_of (accepted b) f p = f b p
book_of (refused r) f p = []

unfoldable pub book_shown : BookAnswer → Bytes
book_shown a = listed (bytes_of "book") (number a.nodes ∷ number a.rels ∷ number a.entries ∷ [])

unfoldable pub rules_shown : RulesAnswer → Bytes
rules_shown a = listed (bytes_of "rules") (number a.categories ∷ number a.policies ∷ [])

unfoldable pub request_shown : RequestAnswer → Bytes
request_shown a = listed (bytes_of "request") (number a.category ∷ map (λ i. bracket (i.actor ∷ number i.node ∷ [])) a.identities)

unfoldable pub written_shown : Outcome Bytes → Bytes
written_shown (accepted t) = []
written_shown (refused r) = bytes_of "write " ++ refusal_text r

unfoldable pub written_text : Outcome Bytes → Bytes
written_text (accepted t) = t
written_text (refused r) = []

pub record Answers : Type 0 where
  pub readers : Bytes
  pub written : Bytes

unfoldable pub answers : Bytes → Bytes → Bytes → Bytes → Answers
answers book rules query request =
    let w = writer_text 16384 2048 book rules query in
    record {
      readers = outcome_shown (bytes_of "book") book_shown (book_service 16384 book).answer
          ++ outcome_shown (bytes_of "rules") rules_shown (rules_service 16384 book rules).answer
          ++ outcome_shown (bytes_of "query") (book_of (read_book book) pattern_shown) (query_service 16384 book query).answer
          ++ outcome_shown (bytes_of "request") request_shown (request_service 16384 book rules request).answer
          ++ written_shown w;
      written = written_text w;
    }

-- the answer of a reader, or its refusal alone
unfoldable pub shown_alone : {A : Type 0} → (A → Bytes) → Outcome A → Bytes
shown_alone f (accepted a) = f a ++ bytes_of "\\n"
shown_alone f (refused r) = refusal_text r

-- what a file of a call says: COMMAND-NUMBERS.out
unfoldable pub book_call : ℕ → Bytes → Bytes → Bytes → Bytes → Bytes
book_call work book rules query request = shown_alone book_shown (book_service work book).answer

unfoldable pub rules_call : ℕ → Bytes → Bytes → Bytes → Bytes → Bytes
rules_call work book rules query request = shown_alone rules_shown (rules_service work book rules).answer

unfoldable pub query_call : ℕ → Bytes → Bytes → Bytes → Bytes → Bytes
query_call work book rules query request = shown_alone (book_of (read_book book) pattern_shown) (query_service work book query).answer

unfoldable pub request_call : ℕ → Bytes → Bytes → Bytes → Bytes → Bytes
request_call work book rules query request = shown_alone request_shown (request_service work book rules request).answer

unfoldable pub write_call : ℕ → ℕ → Bytes → Bytes → Bytes → Bytes → Bytes
write_call room work book rules query request = book_text (writer_text work room book rules query)

unfoldable pub rename_call : ℕ → ℕ → Bytes → Bytes → Bytes → Bytes → Bytes
rename_call room work book rules query request = book_text (book_written work room (renamed_book book))

unfoldable pub tidy_call : ℕ → ℕ → Bytes → Bytes → Bytes → Bytes → Bytes
tidy_call room work book rules query request = book_text (book_written work room (tidy_book book))

unfoldable pub list_call : ℕ → ℕ → Bytes → Bytes → Bytes → Bytes → Bytes
list_call words work book rules query request = outcome_text (names_of (read_book book)) (list_rows work words book rules query request)

unfoldable pub lamp_call : ℕ → Bytes → Bytes → Bytes → Bytes → Bytes
lamp_call work book rules query request = lamp_text (lamp_service work book rules query request).answer

-- the answers of calls on four texts
unfoldable pub called : List (Bytes → Bytes → Bytes → Bytes → Bytes) → Bytes → Bytes → Bytes → Bytes → List Bytes
called calls book rules query request = map (λ call. call book rules query request) calls

unfoldable pub showing : ℕ
unfolding shown_alone book_call rules_call query_call request_call write_call rename_call tidy_call list_call lamp_call called
    number spaced listed bracket clause_shown pattern_shown outcome_shown book_of book_shown rules_shown request_shown written_shown written_text answers
showing = 0
'''


def literal(data):
    """Bytes as a term: a quoted text where every byte has a place in one, else the list of the bytes."""
    if all(b == 10 or 32 <= b < 127 for b in data):
        text = data.decode("ascii").replace("\\", "\\\\").replace('"', '\\"').replace("\n", "\\n")
        return f'(bytes_of "{text}")'
    return "(" + "".join(f"{b} ∷ " for b in data) + "[])"


# The numbers of a call, where its file's name gives none.
NUMBERS = {"book": [16384], "rules": [16384], "query": [16384], "request": [16384], "write": [2048, 16384], "rename": [65536, 16384],
           "tidy": [65536, 16384], "list": [16384, 16384], "lamp": [16384]}

HEAD = '''-- Set {name}: every service's answer, by computation.
use Rattle.std.specs.Prelude.{{◌≡◌, refl, List, [], ◌∷◌}}
use Rattle.model.specs.Bytes.{{Bytes, bytes_of}}
use Rattle.model.specs.Computing.{{computing}}
use Rattle.model.specs.Printed.{{printed}}
use Rattle.cases.specs.Shown.{{{uses}}}
'''


def read(folder, file):
    """The bytes of a file; a missing one has none."""
    path = os.path.join(folder, file)
    return open(path, "rb").read() if os.path.exists(path) else b""


def theorem(name, left, right):
    return f"\n{name} : {left} ≡ {right}\nunfolding computing showing\n{name} = refl\n"


def calls(folder):
    """The calls that a stage's folder answers: for each the term of its definition, and its answer."""
    found = []
    for file in sorted(os.listdir(folder)):
        command, *numbers = file[:-4].split("-") if file.endswith(".out") else [""]
        if command in NUMBERS:
            given = [int(n) for n in numbers] + NUMBERS[command][len(numbers):]
            found.append((command, f"{command}_call " + " ".join(map(str, given)), literal(read(folder, file))))
    return found


def stage_case(name, folder, texts):
    """A set of a stage of document 02: a theorem for the readers and writers, one for the lists and the lamp."""
    found = calls(folder)
    uses = sorted({f"{command}_call" for command, _, _ in found})
    out = HEAD.format(name=name, uses=", ".join(["called", "showing"] + uses))
    searched = ["list", "lamp"]
    for part, which in ("readers", lambda c: c not in searched), ("list", lambda c: c in searched):
        mine = [(term, answer) for command, term, answer in found if which(command)]
        if mine:
            terms, answers = ("(" + "".join(f"{x} ∷ " for x in column) + "[])" for column in zip(*mine))
            out += theorem(part, f"called {terms} {texts}", answers)
    return out


def case(name, folder):
    texts = " ".join(literal(read(folder, f)) for f in TEXTS)
    if not os.path.exists(os.path.join(folder, "readers.out")):
        return stage_case(name, folder, texts)
    gives = f"record {{ readers = {literal(read(folder, 'readers.out'))}; written = {literal(read(folder, 'write.out'))} }}"
    out = HEAD.format(name=name, uses="Answers, answers, showing")
    return out + theorem("readers", f"answers {texts}", gives) + theorem("list", f"printed {texts}", literal(read(folder, "list.out")))


def main():
    args = sys.argv[1:]
    most = int(args[args.index("--most") + 1]) if "--most" in args else 1500
    only = set(args[args.index("--only") + 1:]) if "--only" in args else None
    folder = args[0]
    names = []
    for name in sorted(os.listdir(folder)):
        at = os.path.join(folder, name)
        if not os.path.isdir(at) or (only and name not in only):
            continue
        if sum(len(read(at, f)) for f in TEXTS) <= most:
            names.append(name)
    scratch = tempfile.mkdtemp(prefix="vectors-")
    shutil.copytree(os.path.join(ROOT, "crates", "model"), os.path.join(scratch, "crates", "model"), ignore=shutil.ignore_patterns("must-fail"))
    here = os.path.join(scratch, "crates", "cases")
    for sub in ["src", "specs", "proofs"]:
        os.makedirs(os.path.join(here, sub))
    write = lambda path, text: open(path, "w", encoding="utf-8").write(text)
    write(os.path.join(scratch, "crates.txt"), "model:\ncases: model\n")
    write(os.path.join(here, "src", "lib.rt"), "#![tactic(auto)]\n\npub fn one() -> usize {\n    1\n}\n")
    write(os.path.join(here, "specs", "Lib.antt"), "pub mod Shown\n")
    write(os.path.join(here, "specs", "Shown.antt"), SHOWN)
    write(os.path.join(here, "proofs", "Lib.antt"), "".join(f"pub mod Set{n}\n" for n in names))
    for n in names:
        write(os.path.join(here, "proofs", f"Set{n}.antt"), case(n, os.path.join(folder, n)))
    run = subprocess.run(["rt", "check"], cwd=here, capture_output=True, text=True)
    out = run.stdout + run.stderr
    told = re.findall(r"/Set(\w+)\.antt:\d+:\d+: error: `(\w+)`: (.*)", out)
    long = sorted({n for n, part, words in told if part == "list" and "stopped at the step limit" in words})
    refused = sorted({n for n, part, words in told if not (part == "list" and n in long)})
    other = [l for l in out.split("\n") if ": error" in l and "/Set" not in l]
    for l in other[:10] + [l for l in out.split("\n") if "/Set" in l and ": error" in l][:10]:
        print(l[:600])
    whole = run.returncode == 0 and any(l.startswith("logic=proved") for l in out.split("\n"))
    proved = not refused and not other and (whole or long)
    if not proved and not told and not other:
        print(f"rt check ended with {run.returncode}: {out[-600:]}")
    print(f"{len(names)} sets: readers and writers computed for {len(names)}, lists for {len(names) - len(long)}")
    if long:
        print(f"lists with too many mappings for the checker's limit of steps: {' '.join(long)}")
    if refused:
        print(f"refused: {' '.join(refused)}")
    print("all agree" if proved else f"NOT all agree (scratch repository: {scratch})")
    if proved:
        shutil.rmtree(scratch)
    return 0 if proved else 1


if __name__ == "__main__":
    sys.exit(main())
