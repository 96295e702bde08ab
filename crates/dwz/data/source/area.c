#include "shapes.h"

unsigned long area(const struct shape *first)
{
    unsigned long sum = 0;
    for (const struct shape *shape = first; shape; shape = shape->next)
        sum += (unsigned long)shape->width * shape->height;
    return sum;
}
