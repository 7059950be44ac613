/* serve.h: the loop that serves the lines until it is told to stop. */
#ifndef SERVE_H
#define SERVE_H

#include "host.h"

/* How a loop ends: with a signal; where a hand-over is due, with nothing waiting, or with a second signal; unable to keep the rows. */
enum serve_end { SERVE_SIGNALLED, SERVE_DRAINED, SERVE_CUT_SHORT, SERVE_NOT_KEPT };

/* Serves until stop_fd says so. The lines are open at the start, and may be at the end. */
enum serve_end serve(struct host *host, int stop_fd);

#endif
