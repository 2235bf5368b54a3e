/* Rooms for the trial to lend, with canaries in them and on both sides.
 */
#ifndef ROOMS_H
#define ROOMS_H

enum { ROOM = 40000, BESIDE = 256 };

typedef struct {
    unsigned long space[(BESIDE + ROOM + BESIDE) / sizeof(unsigned long)];
} Room;

/* A room of so many bytes, all canaries. */
void *with_canaries(Room *room, long bytes);

/* Whether the room has what is wanted at its front, so many bytes, and canaries behind it and on both sides. */
int holds(const Room *room, long bytes, const void *wanted, long written);

#endif
