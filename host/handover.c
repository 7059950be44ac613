/* handover.c: the hand-over file: a byte, the number of devices, and the frames that tha_hand writes, one behind the other. */
#include "handover.h"

#include "names.h"

#include <errno.h>
#include <fcntl.h>
#include <stdio.h>
#include <string.h>
#include <unistd.h>

/* Static, since it is large. */
static uint8_t room[HANDOVER_ROOM];

static size_t refused(char error[HANDOVER_ERROR_ROOM], unsigned number)
{
    snprintf(error, HANDOVER_ERROR_ROOM, "hand-over refused %u (%s)", number, refusal_words(number));
    return 0;
}

/* Puts all frames of the gateway behind the number of devices; how many bytes that makes, or 0 with the error. */
static size_t put_frames(const tha_gateway *gateway, char error[HANDOVER_ERROR_ROOM])
{
    size_t length = 1;

    room[0] = (uint8_t)gateway->table.count;
    for (size_t place = 0; place <= HANDOVER_FRAMES; place++) {
        tha_answer answer = tha_hand(*gateway, place, room + length, sizeof room - length);

        if (answer.outcome != THA_WRITTEN) {
            return refused(error, answer.number);
        }
        if (answer.count == 0) {
            break;
        }
        length += answer.count;
    }
    return length;
}

bool handover_write(const char *path, const tha_gateway *gateway, char error[HANDOVER_ERROR_ROOM])
{
    size_t length = put_frames(gateway, error);

    return length > 0 && file_replace(path, room, length, error);
}

/* Reads what the file has, up to the room; -1 with errno where it can't be read. */
static ssize_t get_bytes(int fd)
{
    size_t length = 0;
    ssize_t moved = 1;

    while (length < sizeof room && moved > 0) {
        moved = read(fd, room + length, sizeof room - length);
        if (moved < 0) {
            return -1;
        }
        length += (size_t)moved;
    }
    return (ssize_t)length;
}

/* Hands the bytes to the reader. A file without a byte does not even have the number of devices: it ends too early. */
static enum handover_found take_bytes(size_t length, uint16_t firmware, uint16_t protocol, tha_gateway *gateway,
                                      char error[HANDOVER_ERROR_ROOM])
{
    size_t first = length > 0 ? 1 : 0;
    tha_result result = tha_read(firmware, protocol, length > 0 ? room[0] : 0, room + first, length - first);
    unsigned number = result.answer.number;

    *gateway = result.gateway;
    if (result.answer.outcome == THA_READ) {
        return HANDOVER_READ;
    }
    if (number != THA_TABLE_FULL) {
        first += result.answer.count;
    } else {
        first = 0; /* the number of devices itself */
    }
    snprintf(error, HANDOVER_ERROR_ROOM, "hand-over refused %u at byte %u (%s)", number, (unsigned)first, refusal_words(number));
    return HANDOVER_REFUSED;
}

enum handover_found handover_read(const char *path, uint16_t firmware, uint16_t protocol, tha_gateway *gateway,
                                  char error[HANDOVER_ERROR_ROOM])
{
    int fd = open(path, O_RDONLY | O_CLOEXEC);
    ssize_t length = fd < 0 ? -1 : get_bytes(fd);

    if (length < 0) {
        snprintf(error, HANDOVER_ERROR_ROOM, "%s", strerror(errno));
    }
    if (fd >= 0) {
        close(fd);
    }
    return length < 0 ? HANDOVER_UNREAD : take_bytes((size_t)length, firmware, protocol, gateway, error);
}
