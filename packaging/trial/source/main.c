#include "inc/trial.h"
#include <stdio.h>
static int hidden(int x) { return x * TRIAL_FACTOR; }
int main(int argc, char **argv) { printf("%d\n", hidden(argc) + trial_add(argc, 2) + trial_made() + trial_more()); return 0; }
