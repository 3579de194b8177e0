#!/usr/bin/env python3
"""Writes a unit of a kind, with so many bytes: unit.py KIND SIZE.

| Kind | Is |
|---|---|
| tokens | tokens and comments, and at the end a byte that begins none |
| expressions | a `main` of statements with all sorts of expressions |
| bodies | one function again and again |
| classes | one class again and again |
| statements | a `main` of short statements |
| functions | functions that each call the one before, and a `main` that calls the last |
| variables | a function of variables, and a `main` that calls it |
"""
import sys

# what stands before, what is repeated, and what stands behind
REPEATED = {
    "tokens": ("", "a -> b ++ b == // c\n0 1u 234 /* d */ while ;\n", "@"),
    "expressions": (
        "int main() {",
        "a = b + c * (d - f(e, g ? h : i->j)) || k.m(1)++ ; ",
        "}",
    ),
    "bodies": (
        "",
        "int f(int a, unsigned b) { int c = a; "
        "for (;;) { if (a) return c; else { c += 1; } } } ",
        "",
    ),
    "classes": (
        "class B;",
        "class A : public virtual B { int a, *b; virtual int f(A& x); ~A() {} "
        "public: A(int c) : a(c) { ; } }; ",
        "",
    ),
    "statements": ("int main(){", "mm_put(1+2);", "}"),
}
FUNCTION = """int f{number}(int a, unsigned b) {{
  int c = a;
  while (c < 9) {{ c += 1; if (b == 3u) return c * a - 2; }}
  return c > a ? f{before}(c, b) : a + 1;
}}
"""
MAIN = 60  # bytes that are left for a `main`


def repeated(kind, size):
    """A piece, as often as it fits."""
    head, piece, tail = REPEATED[kind]
    return head + piece * ((size - len(head) - len(tail)) // len(piece)) + tail


def numbered(head, piece, size):
    """Pieces, each with its number, as many as fit; and how many they are."""
    pieces, left = [head], size - len(head)
    while True:
        text = piece(len(pieces) - 1)
        if len(text) > left:
            return "".join(pieces), len(pieces) - 1
        pieces.append(text)
        left -= len(text)


def functions(size):
    """Functions that each call the one before; the first calls itself."""
    text, count = numbered(
        "", lambda n: FUNCTION.format(number=n, before=max(n - 1, 0)), size - MAIN)
    return text + f"int main() {{ return f{count - 1}(1, 2u); }}\n"


def variables(size):
    """A function of variables."""
    text, count = numbered("int f() {\n", lambda n: f"int v{n} = {n % 9};\n", size - MAIN)
    return text + f"return v{count - 1};\n}}\nint main() {{ return f(); }}\n"


kind, size = sys.argv[1], int(sys.argv[2])
if kind in REPEATED:
    unit = repeated(kind, size)
else:
    unit = {"functions": functions, "variables": variables}[kind](size)
sys.stdout.write(unit + " " * (size - len(unit)))
