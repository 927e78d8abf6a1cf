#ifndef TRIAL_H
#define TRIAL_H
#define TRIAL_FACTOR 3
int trial_add(int, int);
int trial_made(void);
int trial_more(void);
#endif
