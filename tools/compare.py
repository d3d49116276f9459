#!/usr/bin/env python3
"""compare.py ORACLE BATCH [options]: run the rules (specs/*.antt) over a batch of cases and compare with the oracle's answers.

Each case becomes one antt declaration, a computed test that the rules' answer (number, template name, line, column, text) is the oracle's.
The declarations go into the specs of a crate of their own, in a throwaway repository beside copies of rules and siblings, which are proved first
(rt begins with what a check of them kept on this machine).

  --crates DIR     where the crates rules and siblings stand (crates beside this file's folder)
  --work DIR       where the repository of cases is written (a temporary folder)
  --limits S,I,E,T scopes, indent, entries, texts (32,256,4096,16384: those of the paper)
  --from N --count N   which cases of the batch, counted from 0, as in messages
  --max-bytes N    leave out cases whose bundle and plan together are larger (3000)
  --min-bytes N    leave out smaller ones (0)
  --max-text N     leave out cases whose text is longer (600)
  --per-module N   cases to a module (100)
  --chunk N        cases to a check (1000)
  --bytes          hand the rules the bytes of bundle and plan, so that checks 2 to 10 are compared too; without it Python
                   decodes them, which is faster, and cases that those checks refuse are left out

Ends with 0 if no case differs, with 1 if one does, with 2 and a message where its input is bad, nothing is left to compare, or the check fails.
"""
import argparse, json, os, re, shutil, struct, subprocess, sys, tempfile, time


def fail(message):
    print("compare.py: " + message, file=sys.stderr)
    sys.exit(2)


def output(command):
    """what a command prints; its failure is ours"""
    try:
        r = subprocess.run(command, capture_output=True, text=True)
    except OSError as e:
        fail("%s: %s" % (command[0], e.strerror))
    if r.returncode != 0:
        fail("%s ended with %d: %s" % (" ".join(command), r.returncode, r.stderr.strip()))
    return r.stdout


def repository(work, crates):
    """a repository of rules, siblings and the cases, whose rules and siblings are proved"""
    for name in ("rules", "siblings"):
        to = os.path.join(work, "crates", name)
        shutil.rmtree(to, ignore_errors=True)
        try:
            shutil.copytree(os.path.join(crates, name), to, ignore=shutil.ignore_patterns("out", "must-fail", "tried"))
        except OSError as e:
            fail("%s: %s" % (os.path.join(crates, name), e))
    os.makedirs(os.path.join(work, "crates", "cases", "src"), exist_ok=True)
    with open(os.path.join(work, "crates", "cases", "src", "lib.rt"), "w") as f:
        f.write("// Only specs.\n#![tactic(auto)]\n")
    with open(os.path.join(work, "crates.txt"), "w") as f:
        f.write("rules:\nsiblings: rules\ncases: rules siblings\n")
    with open(os.path.join(work, "log.rules"), "w") as f:
        r = rt(["lib"], os.path.join(work, "crates", "siblings"), f)
    if r.returncode != 0:
        fail("rules and siblings are not proved: " + os.path.join(work, "log.rules"))


def rt(words, folder, to=subprocess.PIPE):
    try:
        return subprocess.run(["rt"] + words, cwd=folder, stdin=subprocess.DEVNULL, stdout=to, stderr=subprocess.STDOUT, text=True)
    except OSError as e:
        fail("rt: %s" % e.strerror)


def read_batch(path):
    try:
        data = open(path, "rb").read()
    except OSError as e:
        fail("%s: %s" % (path, e.strerror))
    at = 0
    cases = []

    def take(n):
        nonlocal at
        if n > len(data) - at:
            fail("%s: case %d: byte %d: %d bytes are wanted, but %d are left" % (path, len(cases), at, n, len(data) - at))
        at += n
        return data[at - n:at]

    def u32():
        return struct.unpack("<I", take(4))[0]

    def blob():
        return take(u32())

    while at < len(data):
        options = take(1)[0]
        if options > 7:
            fail("%s: case %d: byte %d: options %d are more than three bits" % (path, len(cases), at - 1, options))
        name = blob()
        page = u32()
        bundle = blob()
        plan = blob()
        cases.append((options, name, page, bundle, plan))
    return cases


# antt terms

def text(b):
    """bytes as a quoted text of the characters 0 to 255"""
    if not b:
        return "[]"
    out = []
    for c in b:
        if c == 34:
            out.append('\\"')
        elif c == 92:
            out.append("\\\\")
        elif 32 <= c < 127:
            out.append(chr(c))
        else:
            out.append("\\u{%x}" % c)
    return '(ascii "%s")' % "".join(out)


def opt(v, f):
    return "none" if v is None else "(some %s)" % f(v)


def flag(b):
    return "true" if b else "false"


class Reader:
    """a bundle that keeps the layout, as antt terms"""

    def __init__(self, b):
        self.v = int.from_bytes(b, "big")
        self.left = 8 * len(b)

    def num(self, w):
        self.left -= w
        return (self.v >> self.left) & ((1 << w) - 1)

    def string(self):
        n = self.num(16)
        return self.num(8 * n).to_bytes(n, "big") if n else b""

    def path(self):
        raw = self.string()
        if self.num(1):
            level = self.num(8)
            return "(local %s %d %s)" % (text(raw), level, text(self.string()))
        segs = []
        for _ in range(self.num(8)):
            k = self.num(2)
            segs.append("named " + text(self.string()) if k == 0 else ("path-root" if k == 1 else "path_up"))
        return "(relative %s (%s))" % (text(raw), " ∷ ".join(segs + ["[]"]))

    def parameter(self):
        k = self.num(2)
        if k == 0:
            return "(name %s)" % text(self.string())
        if k == 1:
            return "(path %s)" % self.path()
        if k == 2:
            return "(literal %s)" % self.literal()
        return "(subexpression %s)" % self.call()

    def literal(self):
        k = self.num(3)
        if k == 3:
            return "(unsigned %d)" % self.num(64)
        if k == 4:
            return "(negative %d)" % ((1 << 64) - self.num(64))
        if k == 5:
            return "(string %s)" % text(self.string())
        return ["null", "(boolean false)", "(boolean true)"][k]

    def call(self):
        n = self.parameter()
        ps = [self.parameter() for _ in range(self.num(4))]
        hs = [(self.string(), self.parameter()) for _ in range(self.num(4))]
        p = "pnil"
        for q in reversed(ps):
            p = "(pcons %s %s)" % (q, p)
        h = "hnil"
        for k, q in reversed(hs):
            h = "(hcons %s %s %s)" % (text(k), q, h)
        return "(call %s %s %s)" % (n, p, h)

    def body(self):
        es = []
        for _ in range(self.num(12)):
            l, c = self.num(16), self.num(16)
            es.append((l, c, self.element()))
        t = "tnil"
        for l, c, e in reversed(es):
            t = "(at %d %d %s %s)" % (l, c, e, t)
        return t

    def maybe(self):
        return "(body %s)" % self.body() if self.num(1) else "no_body"

    def element(self):
        k = self.num(4)
        if k == 0:
            return "(raw_string %s)" % text(self.string())
        if k == 8:
            return "(comment %s)" % text(self.string())
        c = self.call()
        if k in (1, 2):
            return "(%s %s %s)" % ("html_expression" if k == 1 else "expression", c, flag(self.num(1)))
        if k == 3:
            n = self.num(2)
            ns = "no_names"
            if n == 1:
                ns = "(single %s)" % text(self.string())
            elif n == 2:
                a = self.string()
                ns = "(pair %s %s)" % (text(a), text(self.string()))
            t = self.maybe()
            i = self.maybe()
            return "(helper_block %s %s %s %s %s)" % (c, ns, t, i, flag(self.num(1)))
        b = " " + self.body() if k in (5, 7) else ""
        indent = opt(self.string() if self.num(1) else None, text)
        kind = {4: "decorator_expression", 5: "decorator_block", 6: "partial_expression", 7: "partial_block"}[k]
        return "(%s %s%s %s %s)" % (kind, c, b, indent, flag(self.num(1)))

    def bundle(self):
        assert self.num(8) == 1
        ts = []
        for _ in range(self.num(8)):
            n = self.string()
            ts.append("(%s, %s)" % (text(n), self.body()))
        return " ∷ ".join(ts + ["[]"])


def value(v):
    if v is None:
        return "jnull"
    if isinstance(v, bool):
        return "(jbool %s)" % flag(v)
    if isinstance(v, int):
        return "(jpos %d)" % v if v >= 0 else "(jneg %d)" % -v
    if isinstance(v, str):
        return "(jstr %s)" % text(v.encode())
    if isinstance(v, list):
        t = "jnil"
        for x in reversed(v):
            t = "(jcons %s %s)" % (value(x), t)
        return "(jarr %s)" % t
    t = "mnil"
    for k, x in sorted(((k.encode(), x) for k, x in v.items()), reverse=True):
        t = "(mcons %s %s %s)" % (text(k), value(x), t)
    return "(jobj %s)" % t


BASE = """-- short forms for the cases
use Rattle.std.specs.Prelude.{ℕ, Bool, true, false, List, [], ◌∷◌}
use Rattle.std.proofs.Math.Option.{Option, none, some}
use Rattle.rules.specs.Bytes.{Bytes}
use Rattle.rules.specs.Json.{Json}
use Rattle.rules.specs.Template.{Template, TemplateElement, tcons}
use Rattle.rules.specs.Registry.{Registry, Limits, Options, get_template}
use Rattle.rules.specs.Call.{Answer, Inputs, scratch_lengths, checked}
use Rattle.siblings.specs.Run.{run_call, run_bytes}

abbrev limits : ℕ → ℕ → ℕ → ℕ → ℕ → Limits
limits scopes indent entries texts page = record { scopes = scopes; indent = indent; entries = entries; texts = texts; page = page }

abbrev options : Bool → Bool → Bool → Options
options s r u = record { strict_mode = s; recursive_lookup = r; guide_truth = u }

abbrev pub at : ℕ → ℕ → TemplateElement → Template → Template
at l c e t = tcons (record { line = l; column = c }) e t

-- past the first ten checks but 6
unfoldable pub by_parts : Bool → Bool → Bool → ℕ → ℕ → ℕ → ℕ → ℕ → List (Bytes × Template) → Json → Bytes → Answer
unfolding run_call
by_parts s r u scopes indent entries texts page ts j start =
    checked 6 (get_template ts start) (λ t. run_call (record { templates = ts; plan = j; options = options s r u; limits = limits scopes indent entries texts page }) start t)

-- from bytes
unfoldable pub by_bytes : Bool → Bool → Bool → ℕ → ℕ → ℕ → ℕ → ℕ → Bytes → Bytes → Bytes → Answer
unfolding run_bytes
by_bytes s r u scopes indent entries texts page b j start =
    run_bytes (record { scratch = scratch_lengths; bundle_bytes = b; options = options s r u; start = start; plan_text = j; limits = limits scopes indent entries texts page })

abbrev pub prints : Bytes → Answer
prints w = record { number = 0; template_name = none; line = 0; column = 0; text = w }

abbrev pub refuses : ℕ → Bytes → ℕ → ℕ → Answer
refuses n t l c = record { number = n; template_name = some t; line = l; column = c; text = [] }
"""

HEAD = """use Rattle.std.specs.Prelude.{Bool, true, false, List, [], ◌∷◌, ◌≡◌, refl}
use Rattle.std.proofs.Math.Option.{Option, none, some}
use Rattle.rules.specs.Bytes.{Bytes, ascii}
use Rattle.rules.specs.Json.{Json, jnull, jbool, jpos, jneg, jstr, jarr, jobj, Jsons, jnil, jcons, Map, mnil, mcons}
use Rattle.rules.specs.Path.{Path, relative, local, PathSeg, named, path-root, path_up}
use Rattle.rules.specs.Template.{Literal, null, boolean, unsigned, negative, string, Parameter, name, path, literal, subexpression, Call, call, Params, pnil, pcons, Hash, hnil, hcons, BlockParam, no_names, single, pair, Template, tnil, tcons, Body, no_body, body, TemplateElement, raw_string, html_expression, expression, helper_block, decorator_expression, decorator_block, partial_expression, partial_block, comment}
use Rattle.rules.specs.Call.{refused}
use Rattle.cases.specs.Base.{at, by_parts, by_bytes, prints, refuses}

"""


def declaration(i, case, answer, limits, by_bytes):
    options, name, page, bundle, plan = case
    number, tname, line, column, length, w = answer
    un = lambda h: b"" if h == "-" else bytes.fromhex(h)
    if number == "0":
        want = "prints %s" % text(un(w))
    elif int(number) < 11:
        want = "refused %s" % number
    else:
        want = "refuses %s %s %s %s" % (number, text(un(tname)), line, column)
    if by_bytes:
        how, of, data = "by_bytes", text(bundle), text(plan)
    else:
        how, of, data = "by_parts", "(%s)" % Reader(bundle).bundle(), value(json.loads(plan.decode()))
    given = "%s %s %s %s %d %d %d %d %d %s %s %s" % (
        how, flag(options & 1), flag(options & 2), flag(options & 4), *limits, page, of, data, text(name))
    return "c%d : %s ≡ %s\nunfolding %s\nc%d = refl\n\n" % (i, given, want, how, i)


def natural(s):
    if not s.isdecimal():
        raise argparse.ArgumentTypeError("%r is no number from 0 on" % s)
    return int(s)


def positive(s):
    if natural(s) == 0:
        raise argparse.ArgumentTypeError("at least 1 is wanted")
    return int(s)


def four(s):
    if not re.fullmatch(r"\d+,\d+,\d+,\d+", s):
        raise argparse.ArgumentTypeError("four numbers S,I,E,T are wanted, not %r" % s)
    return [int(x) for x in s.split(",")]


def main():
    a = argparse.ArgumentParser()
    a.add_argument("oracle")
    a.add_argument("batch")
    a.add_argument("--crates", default=os.path.join(os.path.dirname(os.path.abspath(__file__)), "..", "crates"))
    a.add_argument("--work")
    a.add_argument("--limits", type=four, default="32,256,4096,16384")
    a.add_argument("--from", dest="first", type=natural, default=0)
    a.add_argument("--count", type=natural, default=10**9)
    a.add_argument("--max-bytes", type=natural, default=3000)
    a.add_argument("--min-bytes", type=natural, default=0)
    a.add_argument("--max-text", type=natural, default=600)
    a.add_argument("--per-module", type=positive, default=100)
    a.add_argument("--chunk", type=positive, default=1000)
    a.add_argument("--bytes", action="store_true")
    o = a.parse_args()
    for crate in ("rules", "siblings"):
        if not os.path.exists(os.path.join(o.crates, crate, "src")):
            fail("%s/%s is missing: name the folder of the crates by --crates" % (o.crates, crate))
    cases = read_batch(o.batch)
    answers = [l.split(" ") for l in output([o.oracle, "--batch", o.batch]).splitlines()]
    if len(cases) != len(answers) or any(len(l) != 6 for l in answers):
        fail("%s: %d cases, but %s gives %d answers or other lines" % (o.batch, len(cases), o.oracle, len(answers)))
    chosen, large, front, gave_up = [], 0, 0, 0
    for i in range(o.first, min(len(cases), o.first + o.count)):
        n = answers[i][0]
        if n == "T":
            gave_up += 1
        elif n != "0" and int(n) < 11 and not o.bytes:
            front += 1
        elif not o.min_bytes <= len(cases[i][3]) + len(cases[i][4]) <= o.max_bytes or int(answers[i][4]) > o.max_text:
            large += 1
        else:
            chosen.append(i)
    if not chosen:
        fail("%s: no case is left to compare: %d cases, left out %d refused by checks 2 to 10, %d by size, %d without an answer" % (
            o.batch, len(cases), front, large, gave_up))
    numbers = {}
    for i in chosen:
        numbers[answers[i][0]] = numbers.get(answers[i][0], 0) + 1
    work = o.work or tempfile.mkdtemp(prefix="cases.")
    repository(work, o.crates)
    started, spent, differ, undecided = time.time(), 0.0, [], []
    for k in range(0, len(chosen), o.chunk):
        part = chosen[k:k + o.chunk]
        crate = os.path.join(work, "crates", "cases")
        shutil.rmtree(crate + "/specs", ignore_errors=True)
        os.makedirs(crate + "/specs")
        open(crate + "/specs/Base.antt", "w").write(BASE)
        mods = ["Base"]
        for m in range(0, len(part), o.per_module):
            mod = "C%d" % (m // o.per_module)
            mods.append(mod)
            with open("%s/specs/%s.antt" % (crate, mod), "w") as f:
                f.write(HEAD)
                for i in part[m:m + o.per_module]:
                    f.write(declaration(i, cases[i], answers[i], o.limits, o.bytes))
        open(crate + "/specs/Lib.antt", "w").write("".join("pub mod %s\n" % m for m in mods))
        t = time.time()
        r = rt(["check"], crate)
        spent += time.time() - t
        out = r.stdout
        open(os.path.join(work, "log.%d" % (k // o.chunk)), "w").write(out)
        bad = sorted(set(int(x) for x in re.findall(r"error: (?:in )?`c(\d+)`", out)))
        costly = set(int(x) for x in re.findall(r"error: (?:in )?`c(\d+)`: in its elaboration [^\n]*(?:stopped at the step limit|outgrew the memory limit)", out))
        bad = [i for i in bad if i not in costly]
        proved = "logic=proved" in out or costly
        differ += bad
        undecided += sorted(costly)
        if not proved and not bad:
            print("the check failed, and names no case:", os.path.join(work, "log.%d" % (k // o.chunk)))
            print(out[-3000:])
            sys.exit(2)
        print("%d of %d compared, %d differ, %.1f s" % (min(k + o.chunk, len(chosen)), len(chosen), len(differ), spent), flush=True)
    print("cases %d: compared %d, left out %d refused by checks 2 to 10, %d by size, %d without an answer" % (
        min(len(cases) - o.first, o.count), len(chosen), front, large, gave_up))
    print("numbers: " + " ".join("%s:%d" % (n, numbers[n]) for n in sorted(numbers, key=int)))
    print("%.1f s in checks, %.1f cases a second; %.1f s in all" % (spent, len(chosen) / max(spent, 0.001), time.time() - started))
    if undecided:
        print("past antt's limits of steps or memory, so not compared: %d %s" % (len(undecided), " ".join(map(str, undecided[:50]))))
    print("differ: %d %s" % (len(differ), " ".join(map(str, differ[:50]))))
    print("work: " + work)
    sys.exit(1 if differ else 0)


main()
