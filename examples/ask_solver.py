"""Asks a solver a script of `bilv smt` and prints its answer as `bilv model` reads it, with the values of what the script declares and no others:
ask_solver.py SCRIPT z3 -in pp.single_line=true pp.max_depth=100000000 pp.min_alias_size=100000000
ask_solver.py SCRIPT cvc5 --lang=smt2 --produce-models -"""
import re
import subprocess
import sys

with open(sys.argv[1], encoding="ascii") as it:
    script = it.read()
sorts = dict(re.findall(r"(?m)^\(declare-const (\S+) (.*)\)$", script))
asked = script + "".join(f"(get-value ({name}))\n" for name in sorts)
said, *values = subprocess.run(sys.argv[2:], input=asked, stdout=subprocess.PIPE, text=True, check=False).stdout.splitlines()
pairs = (it[2:-2].split(None, 1) for it in values if it.startswith("(("))
print(said, "(", *(f"(define-fun {name} () {sorts[name]} {value})" for name, value in pairs), ")", sep="\n")
