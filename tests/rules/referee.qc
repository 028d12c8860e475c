// Refused on purpose. fteqcc compiles a test of a string to an IfNot, which reads its operand as a float; the string has a
// definition of another type, so the machine refuses the statement, 16. What was completed before it stands.
//
//   goal: an AddF and a StoreF count the goal, then the IfNot is refused.
//   named_goal: `!scorer` is a NotS, which reads a string, and is accepted.
//   appeal: calls itself without end; the 31st call within each other is the last that is entered, the next is refused 22.
//   end_of_match: the goals that were counted, whatever was refused before.

float goals, named, appeals;

void(string scorer) goal =
{
	goals = goals + 1;
	if (scorer)
		named = named + 1;
};

void(string scorer) named_goal =
{
	goals = goals + 1;
	if (!scorer)
		return;
	named = named + 1;
};

void() appeal =
{
	appeals = appeals + 1;
	appeal();
};

vector() end_of_match =
{
	local vector result;

	result_x = goals;
	result_y = named;
	result_z = appeals;
	return result;
};
