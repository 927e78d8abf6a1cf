#line 1 "gen/gen.y"
int trial_made(void) { return 7; }
