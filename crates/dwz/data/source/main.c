#include "shapes.h"

int main(void)
{
    struct shape second = {{3, 4}, 5, 6, 0};
    struct shape first = {{0, 1}, 7, 8, &second};
    return area(&first) == 86 ? 0 : 1;
}

/* Built with gcc 12.2 by: gcc -g -O2 -ffile-prefix-map=$PWD=/usr/src/shapes -o shapes main.c area.c */
