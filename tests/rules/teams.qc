// Two authors' files name one team, and fteqcc writes its name at two places in the strings, as -O0 leaves it. Strings are compared by their
// letters, so it is one team (EqS, NeS), and a name without letters is none (NotS), whatever their numbers are.
//
//   derby: the two sides are one team, 1; the rivals are two, 1; the sponsor has no name, 1.
//   points: the home side won its match, 3; the guests drew with their rival, 1 each. The Reds have 4, asked for by either of their numbers,
//   the Greens 1. A number that isn't in the strings is refused 33.
//   unnamed: 1 for number 0, and for another number whose text is empty.

vector() derby =
{
	local vector result;

	result_x = (home_side == guest_side);
	result_y = (home_rival != guest_rival);
	result_z = !home_sponsor;
	return result;
};

float(string team) points =
{
	local float sum;

	if (team == home_side)
		sum = sum + 3;
	if (team == guest_side)
		sum = sum + 1;
	if (team == guest_rival)
		sum = sum + 1;
	return sum;
};

float(string team) unnamed =
{
	if (!team)
		return 1;
	return 0;
};
