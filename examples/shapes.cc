// ./mmc link examples/shapes.cc
// > examples/shapes.cc:5:1: N0
// An open-method on two shapes: what runs is chosen by the classes of both. The grammar has it; it
// isn't built yet.
class Shape { public: virtual ~Shape() {} };
class Circle : public Shape { public: int radius; };

int meet(virtual Shape& a, virtual Shape& b) { return 0; }
int meet(virtual Circle& a, virtual Circle& b) { return a.radius + b.radius; }

int main() {
  Circle c;
  c.radius = 7;
  mm_put(meet(c, c));
  return 0;
}
