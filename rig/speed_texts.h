/* The writers and the listers side by side: time of a text and of its file. */
#ifndef RIG_SPEED_TEXTS_H
#define RIG_SPEED_TEXTS_H

void speed_texts(void); /* prints; a part of the speeds */

#endif
