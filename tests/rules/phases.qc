// The phases of a match as a state machine: a cell of function type holds what the next minute does. A match that is level after
// 90 minutes goes on until the next goal, at most to the 120th minute. The result is the last minute and both scores.
//
//   home scores in minutes 23, 67 and 104, the guests in 45 and 88: 2:2 after 90, and 3:2 ends it in minute 104.
//   The phases that the match came to are kept as bits: 1 (first half), 2 (second half), 4 (extra time), 8 (over), in all 15.

float minute, home, guests, seen;
void() phase;

void() first_half, second_half, extra_time, over;
void() watch;

vector() match =
{
	local vector result;

	minute = 0;
	home = 0;
	guests = 0;
	seen = 0;
	phase = first_half;
	while (phase != over)
	{
		minute = minute + 1;
		phase();
	}
	phase();
	result_x = minute;
	result_y = home;
	result_z = guests;
	return result;
};

void() watch =
{
	if (minute == 23 || minute == 67 || minute == 104)
		home = home + 1;
	if (minute == 45 || minute == 88)
		guests = guests + 1;
};

void() first_half =
{
	seen = seen | 1;
	watch();
	if (minute == 45)
		phase = second_half;
};

void() second_half =
{
	seen = seen | 2;
	watch();
	if (minute == 90)
	{
		if (home == guests)
			phase = extra_time;
		else
			phase = over;
	}
};

void() extra_time =
{
	seen = seen | 4;
	watch();
	if (home != guests || minute == 120)
		phase = over;
};

void() over =
{
	seen = seen | 8;
};
