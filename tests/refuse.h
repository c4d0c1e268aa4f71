/* What a program asks of refuse.c below it. */
#ifndef REFUSE_H
#define REFUSE_H

/* From now on the n-th growth is refused, counted from 1, and no other. */
void refuse_growth(long n);

/* How many growths were refused since then. From now on none is. */
long growths_refused(void);

#endif
