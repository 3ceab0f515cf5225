// A pointer to virtual functions is written where an object is made, and read by a call: here beside each other.
// words: -O0
// status: 12
#include <new>
#include <thread>

struct Shape {
    virtual int sides() { return 0; }
    virtual ~Shape() {}
};
struct Square : Shape {
    int sides() override { return 4; }
};

int main() {
    Shape *shape = new Square;
    std::thread other([&] { new (shape) Square; });
    int sides = shape->sides();
    other.join();
    delete shape;
    return sides == 0;
}
