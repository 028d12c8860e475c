// A cup of eight clubs, drawn by halves: the champion of a range of clubs is the winner of the champions of its two halves. The
// locals of a call must be there again after the calls within it. The result is champion, runner-up and the number of matches.
//
//   strength of club n is 3n modulo 8: 3 6 1 4 7 2 5 0
//   1-2: 2, 3-4: 4, 5-6: 5, 7-8: 7; then 2-4: 2, 5-7: 5; then 2-5: 5. Seven matches.

float matches, loser;

float(float club) strength;
float(float one, float two) winner;
float(float first, float clubs) champion;

vector() cup =
{
	local vector result;

	matches = 0;
	result_x = champion(1, 8);
	result_y = loser;
	result_z = matches;
	return result;
};

float(float club) strength =
{
	return (club * 3) & 7;
};

float(float one, float two) winner =
{
	matches = matches + 1;
	if (strength(one) > strength(two))
	{
		loser = two;
		return one;
	}
	loser = one;
	return two;
};

float(float first, float clubs) champion =
{
	local float half, one, two;

	if (clubs == 1)
		return first;
	half = clubs / 2;
	one = champion(first, half);
	two = champion(first + half, half);
	return winner(one, two);
};

// The number of ways in which the clubs of a group can be ordered, by n calls within each other: 31 are the most.
float(float clubs) orders =
{
	if (clubs <= 1)
		return 1;
	return clubs * orders(clubs - 1);
};
