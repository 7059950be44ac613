/* cases_end.c: how the line is set up, and how a gateway ends. */
#include "cases.h"
#include "check.h"
#include "frames.h"
#include "rig.h"

#include <fcntl.h>
#include <signal.h>
#include <string.h>
#include <termios.h>
#include <unistd.h>

/* Makes the line as unfit as it can be: a terminal for people, at another speed. */
static void spoil(const struct rig *rig)
{
    int fd = open(rig->device, O_RDWR | O_NOCTTY);
    struct termios setup;

    CHECK(tcgetattr(fd, &setup) == 0);
    setup.c_iflag = ICRNL | IXON | IXOFF | ISTRIP | INLCR | IGNCR | PARMRK | INPCK;
    setup.c_oflag = OPOST | ONLCR;
    setup.c_lflag = ICANON | ECHO | ISIG | IEXTEN;
    setup.c_cflag |= CSTOPB | CRTSCTS;
    setup.c_cc[VMIN] = 0;
    setup.c_cc[VTIME] = 5;
    cfsetispeed(&setup, B115200);
    cfsetospeed(&setup, B115200);
    CHECK(tcsetattr(fd, TCSANOW, &setup) == 0);
    close(fd);
}

void set_to_9600_8n1_raw(void)
{
    struct rig rig;
    struct termios now;
    int fd;

    rig_make(&rig, "");
    spoil(&rig);
    rig_start(&rig, "");
    fd = open(rig.device, O_RDWR | O_NOCTTY);
    CHECK(fd >= 0 && tcgetattr(fd, &now) == 0);
    close(fd);
    CHECK(cfgetispeed(&now) == B9600 && cfgetospeed(&now) == B9600);
    CHECK((now.c_cflag & CSIZE) == CS8);
    CHECK((now.c_cflag & (tcflag_t)(PARENB | CSTOPB | CRTSCTS)) == 0);
    CHECK((now.c_cflag & (tcflag_t)(CREAD | CLOCAL)) == (tcflag_t)(CREAD | CLOCAL));
    CHECK((now.c_lflag & (tcflag_t)(ICANON | ECHO | ISIG | IEXTEN)) == 0);
    CHECK((now.c_iflag & (tcflag_t)(IXON | IXOFF | ICRNL | INLCR | IGNCR | ISTRIP | PARMRK | INPCK)) == 0);
    CHECK((now.c_oflag & (tcflag_t)OPOST) == 0);
    CHECK(now.c_cc[VMIN] == 1 && now.c_cc[VTIME] == 0);
    rig_quiet(&rig);
    rig_end(&rig);
}

/* Each byte value in a frame, in and out: as data of frames that are refused, and all values of cool but 255 there and back. */
void every_byte_passes(void)
{
    struct rig rig;
    uint8_t data[256];
    uint8_t frame[600];
    size_t length;

    for (size_t i = 0; i < sizeof data; i++) {
        data[i] = (uint8_t)i;
    }
    rig_make(&rig, RIG_ROW_1);
    spoil(&rig);
    rig_start(&rig, "--delay 0");
    length = frame_of(frame, 6, data, 128);
    rig_send_bytes(&rig, frame, length);
    rig_log(&rig, "controller refused 10");
    length = frame_of(frame, 7, data + 1, 255);
    rig_send_bytes(&rig, frame, length);
    rig_log(&rig, "controller refused 7");
    for (unsigned value = 0; value < 255; value++) {
        rig_send(&rig, setting_hex(UPDATE, COOL, 1, 0, (uint8_t)value));
        rig_reply(&rig, setting_hex(UPDATED, COOL, 1, 0, (uint8_t)value));
    }
    rig_end(&rig);
}

static void ends_on(int number)
{
    struct rig rig;

    rig_make(&rig, RIG_ROW_1);
    rig_start(&rig, "--silent 1");
    rig_send(&rig, setting_hex(UPDATE, COOL, 1, 0, 50));
    rig_log(&rig, "queued controller cool 1 state 0 value 50, 1 waiting");
    rig_signal(&rig, number);
    CHECK(rig_wait(&rig) == 0);
    rig_log(&rig, "ended by a signal, 1 waiting");
    CHECK(!rig_next_line(&rig));
    rig_end(&rig);
}

void ends_on_signals(void)
{
    ends_on(SIGTERM);
    ends_on(SIGINT);
}

/* A signal is heard at once, before all the bytes that are in the line already. */
void ends_under_load(void)
{
    static uint8_t flood[65536];
    struct rig rig;
    size_t sent = 0;
    size_t drops = 0;

    for (size_t i = 0; i < sizeof flood; i++) {
        flood[i] = i % 2 == 0 ? 0xCA : 0x35;
    }
    rig_make(&rig, "");
    rig_start(&rig, "");
    rig_signal(&rig, SIGSTOP);
    for (int i = 0; i < 100; i++) {
        sent += rig_push(&rig, flood + sent % 2, sizeof flood - 1);
        rig_pause(1);
    }
    rig_signal(&rig, SIGTERM);
    rig_signal(&rig, SIGCONT);
    CHECK(rig_wait(&rig) == 0);
    while (rig_next_line(&rig) && strstr(rig.line, "controller drop 4") != NULL) {
        drops += 1;
    }
    CHECK(strstr(rig.line, "ended by a signal, 0 waiting") != NULL && !rig_next_line(&rig));
    CHECK_SAYS(sent >= 2048 && drops < sent / 4, "ends before the flood does: %zu drops in %zu bytes", drops, sent);
    rig_end(&rig);
}

/* Started without standard input, output and error, the line gets replies and nothing else. */
void no_standard_error(void)
{
    struct rig rig;

    rig_make(&rig, "");
    rig.error = CLOSED;
    rig_launch(&rig, "");
    rig_quiet(&rig);
    rig_send(&rig, "ca 35");
    rig_quiet(&rig);
    rig_end(&rig);
}
