// Reading an entity's field: the LoadF is refused 30 where no entities are given at load, with the count of the statements before it.

float armbands;

float() captain_plays =
{
	armbands = armbands + 1;
	return self.health > 0;
};
