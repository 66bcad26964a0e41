/* The parts of the tests. */
#ifndef TESTS_H
#define TESTS_H

/* Each function and status, and frames that nobody meant, so many of them. */
void embedding(long frames);

/* Calls in steps, bytes without frames, and places. */
void jobs_and_places(void);

/* The upper as a manifest. */
void saving(void);

/* Each request for memory refused in turn; and all from each one on. */
void refused_memory(void);

/* So many rounds of calls leave no memory behind. */
void steady_memory(long rounds);

/* Eight threads and one mutex, for so many rounds, or for so many seconds where these aren't 0. */
void shared_by_threads(int rounds, int seconds);

#endif
