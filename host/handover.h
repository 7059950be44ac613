/* handover.h: the hand-over file: a byte, the number of devices, and the frames that tha_hand writes, one behind the other. */
#ifndef HANDOVER_H
#define HANDOVER_H

#include "../include/wrackpulley.h"
#include "files.h"

enum {
    HANDOVER_FRAMES = 5 + 26 * THA_ROWS,                       /* the most frames */
    HANDOVER_MOST = 1 + HANDOVER_FRAMES * THA_REPLY_ROOM,      /* the longest hand-over, also with each byte escaped */
    HANDOVER_ROOM = HANDOVER_MOST + 2 * THA_FRAME_ROOM,        /* the most bytes of a file that are looked at */
    HANDOVER_ERROR_ROOM = FILES_ERROR_ROOM
};

/* Writes the gateway's hand-over to the file at the path, whole or not at all. False says why in error. */
bool handover_write(const char *path, const tha_gateway *gateway, char error[HANDOVER_ERROR_ROOM]);

enum handover_found { HANDOVER_READ, HANDOVER_REFUSED, HANDOVER_UNREAD };

/*
 * Reads the gateway from the file at the path, which is there. The numbers are tha_read's. HANDOVER_REFUSED: error has the number of
 * the refusal and the place of the byte in the file; HANDOVER_UNREAD: error has why the file can't be read.
 */
enum handover_found handover_read(const char *path, uint16_t firmware, uint16_t protocol, tha_gateway *gateway,
                                  char error[HANDOVER_ERROR_ROOM]);

#endif
