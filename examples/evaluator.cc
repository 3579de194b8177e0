// printf '7\n-1\n3\n-3\n-5\n10\n-2\n4\n-6\n' | ./mmc run examples/evaluator.cc
// > 25
// > result 0
// A compiler's first half: it reads 7 + 3 * (10 - 4) from the input and evaluates it, by a function
// for each rule of its grammar. A number stands for itself, and -1 to -6 stand for + - * / ( and ).
int expression(int token);

// The value of what begins with this token, of which the rest is still to be read.
int primary(int token) {
  if (token != -5) return token;
  return expression(mm_get());
}

// The next token; a parenthesis that closes (-6) where the input has no more.
int next() { return mm_more() ? mm_get() : -6; }

// A product, given its first factor: it gives the value, and leaves an operator of sums to `sum`.
int sum(int left, int operator_);

int product(int before, int sign, int value) {
  int token = next();
  if (token == -3) return product(before, sign, value * primary(mm_get()));
  if (token == -4) return product(before, sign, value / primary(mm_get()));
  return sum(before + sign * value, token);
}

int sum(int left, int operator_) {
  if (operator_ == -1) return product(left, 1, primary(mm_get()));
  if (operator_ == -2) return product(left, -1, primary(mm_get()));
  return left;
}

int expression(int token) { return product(0, 1, primary(token)); }

int main() {
  mm_put(expression(mm_get()));
  return 0;
}
