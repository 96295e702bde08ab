/* What a drawing is made of. */
struct point {
    int x;
    int y;
};

struct shape {
    struct point corner;
    unsigned int width;
    unsigned int height;
    struct shape *next;
};

unsigned long area(const struct shape *first);
