// > 1
// > 1
// > 0
// > result 0
// Two functions that call each other, of which one is declared before.
bool is_odd(unsigned n);
bool is_even(unsigned n) { return n == 0u || is_odd(n - 1u); }
bool is_odd(unsigned n) { return n != 0u && is_even(n - 1u); }

int main() {
  mm_put(is_even(1000u));
  mm_put(is_odd(1001u));
  mm_put(is_odd(2000u));
  return 0;
}
