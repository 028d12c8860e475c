// A season of three clubs, each playing the others once: three points for a win, one for a draw. Clubs with equal points are
// ordered by goal difference, then by goals scored. The result is the table: the numbers of the first, second and third club.
//
//   Reds 2:1 Blues, Blues 3:2 Greens, Greens 1:0 Reds
//   Reds   3 points, 2:2 goals;  Blues 3 points, 4:4 goals;  Greens 3 points, 3:3 goals
//
// so points and differences are all equal, and goals scored decide: Blues (2), Greens (3), Reds (1).

float REDS = 1, BLUES = 2, GREENS = 3;
float reds_points, reds_scored, reds_conceded;
float blues_points, blues_scored, blues_conceded;
float greens_points, greens_scored, greens_conceded;

float(float scored, float conceded) points_for;
void(float club, float scored, float conceded) record;
void(float home, float home_goals, float away, float away_goals) play;
float(float points, float difference, float scored, float other_points, float other_difference, float other_scored) ranks_above;
vector() table;

vector() season =
{
	play(REDS, 2, BLUES, 1);
	play(BLUES, 3, GREENS, 2);
	play(GREENS, 1, REDS, 0);
	return table();
};

float(float scored, float conceded) points_for =
{
	if (scored > conceded)
		return 3;
	if (scored == conceded)
		return 1;
	return 0;
};

void(float club, float scored, float conceded) record =
{
	if (club == REDS)
	{
		reds_points = reds_points + points_for(scored, conceded);
		reds_scored = reds_scored + scored;
		reds_conceded = reds_conceded + conceded;
	}
	else if (club == BLUES)
	{
		blues_points = blues_points + points_for(scored, conceded);
		blues_scored = blues_scored + scored;
		blues_conceded = blues_conceded + conceded;
	}
	else
	{
		greens_points = greens_points + points_for(scored, conceded);
		greens_scored = greens_scored + scored;
		greens_conceded = greens_conceded + conceded;
	}
};

void(float home, float home_goals, float away, float away_goals) play =
{
	record(home, home_goals, away_goals);
	record(away, away_goals, home_goals);
};

float(float points, float difference, float scored, float other_points, float other_difference, float other_scored) ranks_above =
{
	if (points != other_points)
		return points > other_points;
	if (difference != other_difference)
		return difference > other_difference;
	return scored > other_scored;
};

vector() table =
{
	local float reds_difference, blues_difference, greens_difference;
	local float reds_above_blues, blues_above_greens, reds_above_greens;

	reds_difference = reds_scored - reds_conceded;
	blues_difference = blues_scored - blues_conceded;
	greens_difference = greens_scored - greens_conceded;
	reds_above_blues = ranks_above(reds_points, reds_difference, reds_scored, blues_points, blues_difference, blues_scored);
	blues_above_greens = ranks_above(blues_points, blues_difference, blues_scored, greens_points, greens_difference, greens_scored);
	reds_above_greens = ranks_above(reds_points, reds_difference, reds_scored, greens_points, greens_difference, greens_scored);
	if (reds_above_blues && reds_above_greens)
	{
		if (blues_above_greens)
			return '1 2 3';
		return '1 3 2';
	}
	if (blues_above_greens && !reds_above_blues)
	{
		if (reds_above_greens)
			return '2 1 3';
		return '2 3 1';
	}
	if (reds_above_blues)
		return '3 1 2';
	return '3 2 1';
};
