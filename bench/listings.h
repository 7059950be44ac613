/*
 * listings.h: the two listing programs on one large input.
 */
#ifndef LISTINGS_H
#define LISTINGS_H

#include "clock.h"

enum { LISTING_BYTES = 64 << 20 };

/* Writes so many bytes for the listing programs to a file. */
void listings_input(const char *path, size_t n);

/* Runs both on LISTING_BYTES of traffic, by turns, with files in a folder; a difference in what they print ends the program with
 * status 1. The times are in ns a byte. */
void listings_run(const char *proved, const char *plain, const char *folder, times *proved_times, times *plain_times);

#endif
