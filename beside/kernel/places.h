/*
 * Included before the C of an image that goes by the points of the protocol, behind kills.h or lockstep.h: before a shared
 * instruction of a template stands the point that the table has for its place, and before others none. points.py writes the
 * table behind the program.
 */
extern const signed char mesa_points[];
#define MESA_STEP(self, place, name, address)                                                                                \
    do {                                                                                                                     \
        if (mesa_points[place] >= 0)                                                                                         \
            MESA_POINT(self, mesa_points[place]);                                                                            \
    } while (0)
