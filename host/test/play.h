/* play.h: plays a file of exchanges (see exchanges.txt), each on a gateway of its own. */
#ifndef PLAY_H
#define PLAY_H

void play(const char *path);

#endif
