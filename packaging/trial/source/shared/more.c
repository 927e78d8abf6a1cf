int trial_more(void) { return 11; }
