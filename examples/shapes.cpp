/* Measures shapes of which each knows for itself what it covers. The shapes are static objects, whose constructors run before
 * main and put them into a list. Each is measured by a child of its own, over the points of a grid, and the parent, which has
 * the same list, tells what they came to. */

#include "snow.h"

namespace {

constexpr int side = 64; /* of the square in which all shapes lie, with the middle at 0, 0 */

/* A list whose items are chained by themselves, in the order in which they are appended. */
template <typename Item>
class Chain {
public:
    void append(Item &item)
    {
        *end = &item;
        end = &item.next;
    }

    /* Calls a function with the number of each item, from 1, and the item. */
    template <typename Function>
    void for_each(Function function) const
    {
        uint32_t number = 0;

        for (Item *item = first; item; item = item->next)
            function(++number, *item);
    }

private:
    Item *first = nullptr;
    Item **end = &first;
};

class Shape {
public:
    explicit Shape(const char *name);
    virtual ~Shape() = default;
    virtual bool covers(int x, int y) const = 0;

    const char *const name;
    Shape *next = nullptr;
};

/* Made at its first use, since the order of the constructors of static objects is not told. */
Chain<Shape> &all_shapes()
{
    static Chain<Shape> shapes;

    return shapes;
}

Shape::Shape(const char *name) : name(name) { all_shapes().append(*this); }

class Disc : public Shape {
public:
    Disc(const char *name, int radius) : Shape(name), radius(radius) {}
    bool covers(int x, int y) const override { return x * x + y * y <= radius * radius; }

private:
    const int radius;
};

class Diamond : public Shape {
public:
    Diamond(const char *name, int width) : Shape(name), width(width) {}
    bool covers(int x, int y) const override { return (x < 0 ? -x : x) + (y < 0 ? -y : y) <= width; }

private:
    const int width;
};

/* What one shape covers and another does not. */
class Difference : public Shape {
public:
    Difference(const char *name, const Shape &whole, const Shape &hole) : Shape(name), whole(whole), hole(hole) {}
    bool covers(int x, int y) const override { return whole.covers(x, y) && !hole.covers(x, y); }

private:
    const Shape &whole, &hole;
};

Disc disc("a disc", 30);
Diamond diamond("a diamond", 30);
Difference rest("the disc without the diamond", disc, diamond);

uint32_t area(const Shape &shape)
{
    uint32_t covered = 0;

    for (int y = -side / 2; y <= side / 2; y++)
        for (int x = -side / 2; x <= side / 2; x++)
            covered += shape.covers(x, y);
    return covered;
}

}

int main()
{
    uint32_t count = 0, ticket, child;

    all_shapes().for_each([&](uint32_t number, Shape &) { count = number; });
    ticket = snow_ticket(count, 0);
    if (snow_refused(ticket) || snow_granted() < count) {
        snow_print("each shape has a child: see --clones\n");
        return 1;
    }
    child = snow_clone(ticket);
    if (child)
        all_shapes().for_each([&](uint32_t number, Shape &shape) {
            if (number == child)
                snow_exit(area(shape));
        });
    snow_join(ticket);
    all_shapes().for_each([](uint32_t number, Shape &shape) {
        snow_print(shape.name);
        snow_print(" covers ");
        snow_print_number(snow_value(number));
        snow_print(" points\n");
    });
    return 0;
}
