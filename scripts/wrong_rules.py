#!/usr/bin/env python3
"""Changes one rule of the symbolic machine at a time so that it claims too much, on a copy, and sees the simulation's
proof refused. Not part of the gate: each rule takes a few minutes.

    scripts/wrong_rules.py [WORD]    all rules, or those whose name has the word
"""
import pathlib, re, shutil, subprocess, sys, tempfile

ROOT = pathlib.Path(__file__).resolve().parent.parent
SYMBOLIC = "crates/sym_expr/specs/Symbolic.antt"

# name, what stands there, what stands there instead (all in Symbolic.antt)
RULES = [
    ("addresses of two objects have known flags",
     "then next flags_of_other", "then next (flags_of_offsets (object_size s o) x y)"),
    ("different points have different addresses",
     "then next flags_of_equal else stuck causes.Value", "then next flags_of_equal else next flags_of_other"),
    ("the end of a block is the start of the next",
     "compared s (At p) (At q) = if same_point p q then next flags_of_equal else stuck causes.Value",
     "compared s (At p) (At q) = if same_point p q then next flags_of_equal else if (q.offset == 0) && (q.j == 0) then next flags_of_equal else stuck causes.Value"),
    ("a point compared with any number is above it",
     "compared s (At p) (Num n) = next (if n == 0 then flags_of_positive else flags_unknown)",
     "compared s (At p) (Num n) = next flags_of_positive"),
    ("the order of addresses past their object is known",
     "c = if nat_le x size && nat_le y size then Some (nat_le y x) else None;", "c = Some (nat_le y x);"),
    ("an address past its object is not zero",
     "zero_outcome negated (Addr o x) s = if nat_le x (object_size s o) then next (Num (bit_of negated)) else stuck causes.Value",
     "zero_outcome negated (Addr o x) s = next (Num (bit_of negated))"),
    ("every address is even",
     "unary_outcome f w (Step p q n) =",
     "unary_outcome (unary.Bit place) w (Addr o x) = if place == 0 then next (Num 0) else stuck causes.Value\n"
     "unary_outcome f w (Step p q n) ="),
    ("sums of 32 bits keep addresses",
     "sum_outcome g sum W a b = of_numbers (λ m n. Num (sum_value sum 32 m n)) a b",
     "sum_outcome g Add W a b = sum_of g a b\n"
     "sum_outcome g Subtract W a b = of_numbers (λ m n. Num (sum_value Subtract 32 m n)) a b"),
    ("a difference leads from any address to its first target",
     "across p q v = if option_map_or (same_value v) (value_of q) false then or_stuck causes.Value (value_of p) else stuck causes.Value",
     "across p q v = or_stuck causes.Value (value_of p)"),
    ("a step of any number reaches its point",
     "if same_point at q && (n == wrapped 64 (dist g p q)) then", "if same_point at q then"),
    ("an entry is not divided by its scale",
     "(int_div_euclid (dist g p q) (pos scale))", "(dist g p q)"),
    ("a page is joined with the low twelve bits of another granule",
     "bytes_eq a b && option_map_or (λ d. x / object_alignment d == y / object_alignment d) (data_at g a) false",
     "bytes_eq a b && option_map_or (λ d. object_alignment d == object_alignment d) (data_at g a) false"),
    ("a load without sign takes a difference of four bytes",
     "takes_quarters count signed X = (count == 4) && signed", "takes_quarters count signed X = count == 4"),
    ("four bytes keep a difference, whatever its range",
     "stored_cells count v = if",
     "stored_cells count (Diff p q) = if count == 8 then Some (value_cells (Diff p q)) else if count == 4 then Some (parts_from 4 0 (λ k. Quarter k p q)) else None\n"
     "stored_cells count v = if"),
    ("a value that was stored over in part is read whole",
     "if are_parts 0 v (Part j v ∷ cs) then Some v", "if j == 0 then Some v"),
    ("a load may reach past its object",
     "= if is_inside s o x count then read_cells", "= if is_inside s o x 1 then read_cells"),
    ("a store may reach past its object",
     "if is_inside s o x (length cells) then", "if is_inside s o x 1 then"),
    ("undefined bytes are zeros",
     "if list_any is_blank cells then stuck causes.Undefined else or_stuck Mixed (formed_value",
     "if list_any is_blank cells then next (Num 0) else or_stuck Mixed (formed_value"),
    ("a call returns to itself",
     "link = λ s. next (with_register false 30 (At (after g s.place)) s);",
     "link = λ s. next (with_register false 30 (At s.place) s);"),
]
IMPORTS = ("value_cells, number_cells, object_size, less}", "value_cells, number_cells, parts_from, object_size, less}")


def prove(copy):
    """Proves the simulation and what it stands on; what an earlier run proved of the same files is kept. The lines of
    the run, and whether all passed."""
    run = subprocess.run(["rt", "ci", "simulation"], cwd=copy, capture_output=True, text=True)
    return (run.stdout + run.stderr).splitlines(), run.returncode == 0


def definitions_alone(crate):
    """Takes the laws of the definitions away, with their proofs: the simulation uses none of them, and the worked
    runs among them would refuse some rules already."""
    shutil.rmtree(crate / "proofs/laws")
    for proof in (crate / "proofs").glob("*.antt"):
        proof.unlink()
    (crate / "proofs/Lib.antt").write_text("")
    (crate / "src/laws.rt").unlink()
    root = crate / "src/lib.rt"
    root.write_text(root.read_text().replace("pub mod laws;\n", ""))
    shutil.rmtree(crate / "must-fail")


def verdict(copy):
    """Where the proof breaks: in the laws on operations, steps and runs, or not at all."""
    lines, passed = prove(copy)
    if passed:
        return "proved!"
    if not any(re.match(r"rt: sym_expr (proved|is kept)", line) for line in lines):
        return "not a definition: " + first_error(lines)
    return "refused: " + first_error(lines)


def first_error(lines):
    wrong = [line for line in lines if re.search(r"error|not proved|mismatch|refused", line)]
    return (wrong or lines or ["no word"])[0].strip()


def main():
    wanted = sys.argv[1] if len(sys.argv) > 1 else ""
    passed = 0
    with tempfile.TemporaryDirectory() as folder:
        copy = pathlib.Path(folder) / "copy"
        subprocess.run(["git", "clone", "-q", str(ROOT), str(copy)], check=True)
        definitions_alone(copy / "crates/sym_expr")
        text = (copy / SYMBOLIC).read_text()
        result = verdict(copy)
        print(f"as it stands: {result}", flush=True)
        if result != "proved!":
            sys.exit("the simulation isn't proved here: nothing is shown")
        for name, old, new in RULES:
            if wanted not in name:
                continue
            assert text.count(old) == 1, f"{name}: the rule stands {text.count(old)} times"
            (copy / SYMBOLIC).write_text(text.replace(old, new).replace(*IMPORTS))
            result = verdict(copy)
            passed += not result.startswith("refused")
            print(f"{name}: {result}", flush=True)
    sys.exit(1 if passed else 0)


main()
