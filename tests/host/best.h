/* A best's numbers: x, y, SAD, average, and how many reference samples at its vector lie outside the data, or -1 where its record is not bad. */
#ifndef BEST_H
#define BEST_H

enum { NUMBERS = 5, OUTSIDE = 4 };

#endif
