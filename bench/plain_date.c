/*
 * plain_date.c: which dates are valid (document 01, "DateTime"; document 02, M-101).
 */
#include "plain_parts.h"

static bool is_leap(unsigned year)
{
    return year % 400 == 0 || (year % 4 == 0 && year % 100 != 0);
}

static unsigned month_length(unsigned year, unsigned month)
{
    switch (month) {
    case 2:
        return is_leap(year) ? 29 : 28;
    case 4:
    case 6:
    case 9:
    case 11:
        return 30;
    default:
        return 31;
    }
}

bool plain_date_valid(tha_date d)
{
    return d.year >= 2000 && d.year <= 2255 && d.month >= 1 && d.month <= 12 && d.day >= 1 &&
           d.day <= month_length(d.year, d.month) && d.weekday >= 1 && d.weekday <= 7 && d.hour <= 23 && d.minute <= 59;
}

tha_date plain_no_date(void)
{
    return (tha_date){0xFFFF, THA_NONE, THA_NONE, THA_NONE, THA_NONE, THA_NONE};
}
