/* The two jobs; each gives the program's exit status. */
#ifndef JOBS_H
#define JOBS_H

int job_frames(void);
int job_probe(void);

#endif
