/* The refusals in words. */
#include "factor_curves.h"

const char *curve_refusal_words(int number)
{
    switch (number) {
    case CURVE_REFUSED_COUNT:
        return "the lists differ in length, or there are fewer than 2 or more "
               "than 64 points";
    case CURVE_REFUSED_SHAPE:
        return "the shape code is none of 1 (rising), 2 (convex), 3 (falling), "
               "4 (concave)";
    case CURVE_REFUSED_AREA:
        return "an area is outside 0 to 20,000, not larger than the one "
               "before, or more than 2,000 beyond it";
    case CURVE_REFUSED_VALUE:
        return "a value is outside 0 to 200,000";
    case CURVE_REFUSED_SLOPE:
        return "a slope is outside -10,000 to 10,000";
    case CURVE_REFUSED_SEGMENT:
        return "two neighbouring points do not fit the shape";
    case CURVE_REFUSED_OUTSIDE:
        return "an area is outside the curve";
    case CURVE_REFUSED_SHEET:
        return "the step is 0, or the sheet has no entries or more than 1,024";
    case CURVE_REFUSED_MARK:
        return "not a curve file of version 1";
    case CURVE_REFUSED_LENGTH:
        return "the file's length does not fit its number of points";
    case CURVE_REFUSED_ROOM:
        return "a lent list or the scratch is too short";
    case CURVE_REFUSED_BUFFER:
        return "the buffer is too short for the curve file";
    case CURVE_REFUSED_TRIPLES:
        return "the length of the triples is no multiple of 24 bytes";
    case CURVE_REFUSED_FIGURE:
        return "a figure is not a finite whole number";
    default:
        return "unknown refusal";
    }
}
