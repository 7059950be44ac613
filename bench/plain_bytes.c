/*
 * plain_bytes.c: numbers and dates in a record, the low byte first (document 01, "The record inside").
 */
#include "plain_parts.h"

uint16_t plain_get16(const uint8_t *at)
{
    return (uint16_t)(at[0] | at[1] << 8);
}

uint32_t plain_get32(const uint8_t *at)
{
    return plain_get16(at) | (uint32_t)plain_get16(at + 2) << 16;
}

tha_date plain_get_date(const uint8_t *at)
{
    return (tha_date){plain_get16(at), at[2], at[3], at[4], at[5], at[6]};
}

void plain_put8(plain_data *data, uint8_t value)
{
    data->bytes[data->len++] = value;
}

void plain_put16(plain_data *data, uint16_t value)
{
    plain_put8(data, (uint8_t)value);
    plain_put8(data, (uint8_t)(value >> 8));
}

void plain_put32(plain_data *data, uint32_t value)
{
    plain_put16(data, (uint16_t)value);
    plain_put16(data, (uint16_t)(value >> 16));
}
