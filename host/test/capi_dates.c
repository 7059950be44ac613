/* capi_dates.c: which dates are stored, and the owner's check of a date that another build left (document 02, M-101). */
#include "capi.h"
#include "check.h"
#include "frames.h"
#include "same.h"

#include <string.h>

static const struct named_date {
    uint16_t year;
    uint8_t month;
    uint8_t day;
    bool good;
} named_dates[] = {
    {2000, 2, 29, true},   {2004, 2, 29, true},   {2096, 2, 29, true},   {2001, 2, 29, false}, {2100, 2, 29, false},
    {2200, 2, 29, false},  {2012, 2, 30, false},  {2012, 4, 31, false},  {2012, 6, 31, false}, {2012, 9, 31, false},
    {2012, 11, 31, false}, {2255, 12, 31, true},  {2012, 12, 0, false},  {2012, 0, 1, false},  {2012, 13, 1, false},
    {1999, 12, 31, false}, {2256, 1, 1, false},   {2100, 2, 28, true},   {2012, 1, 31, true},  {2012, 1, 32, false},
};

enum { NAMED_DATES = sizeof named_dates / sizeof named_dates[0] };

static const tha_date none = {
    .year = 0xFFFF, .month = THA_NONE, .day = THA_NONE, .weekday = THA_NONE, .hour = THA_NONE, .minute = THA_NONE};

/* The date, at 11:04 and with a weekday that is not compared. */
static tha_date date_of(const struct named_date *named)
{
    return (tha_date){.year = named->year, .month = named->month, .day = named->day, .weekday = 4, .hour = 11, .minute = 4};
}

/* A gateway with other values in all properties, and this stored date. */
static tha_gateway gateway_of_date(tha_date date)
{
    uint8_t reply[THA_REPLY_ROOM];
    tha_gateway gateway = queue_setting(gateway_of_rows(2), FAN, 0x4101, 2, 60);

    gateway = tha_set_network_error(gateway, 0xA1B2);
    gateway = feed_record(gateway, UPDATE, REPORTING, (const uint8_t[]){1}, 1, reply).gateway;
    gateway.properties.date = date;
    return gateway;
}

/* The gateway after has this stored date, and all else but the receivers as before. */
static void check_stored(tha_gateway before, tha_gateway after, tha_date date)
{
    before.properties.date = date;
    CHECK_SAYS(same_properties(&after.properties, &before.properties), "the properties, %u-%u-%u stored", date.year, date.month,
               date.day);
    CHECK(same_table(&after.table, &before.table) && same_queue(&after.queue, &before.queue));
}

/* The owner's check leaves this stored date of a gateway that had that one; the receivers are inside a packet, an escape pending. */
static void check_checked(tha_date stored, tha_date date)
{
    tha_gateway gateway = gateway_of_date(stored);
    tha_gateway after;

    gateway.receivers.controller.inside = true;
    gateway.receivers.controller.escaped = true;
    gateway.receivers.panel = gateway.receivers.controller;
    after = tha_check_date(gateway);
    check_stored(gateway, after, date);
    CHECK(same_receivers(&after.receivers, &gateway.receivers));
}

void dates_sent(void)
{
    const tha_date stored = {.year = 2012, .month = 6, .day = 26, .weekday = 2, .hour = 10, .minute = 27};
    uint8_t nothing[7];

    memset(nothing, THA_NONE, sizeof nothing);
    for (size_t i = 0; i < NAMED_DATES; i++) {
        const struct named_date *named = &named_dates[i];
        const uint8_t fields[] = {(uint8_t)named->year, (uint8_t)(named->year >> 8), named->month, named->day, 4, 11, 4};
        tha_gateway gateway = gateway_of_date(stored);
        uint8_t reply[THA_REPLY_ROOM];

        check_reply(gateway, UPDATE, DATE, fields, named->good ? fields : nothing, sizeof fields);
        check_stored(gateway, feed_record(gateway, UPDATE, DATE, fields, sizeof fields, reply).gateway,
                     named->good ? date_of(named) : stored);
    }
}

void dates_checked(void)
{
    for (size_t i = 0; i < NAMED_DATES; i++) {
        tha_date date = date_of(&named_dates[i]);

        check_checked(date, named_dates[i].good ? date : none);
    }
    check_checked(none, none);
}

/* A date that breaks the rule in another part than its day, and one that is not available in all parts but one. */
void other_dates_checked(void)
{
    const tha_date good = {.year = 2012, .month = 6, .day = 26, .weekday = 2, .hour = 10, .minute = 27};
    tha_date bad[] = {good, good, good, good, none, none};

    bad[0].weekday = 0;
    bad[1].weekday = 8;
    bad[2].hour = 24;
    bad[3].minute = 60;
    bad[4].year = 2012;
    bad[5].minute = 0;
    for (size_t i = 0; i < sizeof bad / sizeof bad[0]; i++) {
        check_checked(bad[i], none);
    }
}
