// A team match of 32 players, who are entities: what each of them is and has stands in fields. The host gives the number of entities at
// load, connects the players one by one with self set, then calls StartFrame for each frame with time and frametime set, and at the
// end EndMatch. StartFrame walks over all players by their chain and lets each think; what it thinks is a field, too.
//
//   The odd players are red, the even ones blue. Each shoots in every second of its own frames at the next living player of the other
//   side along the chain. tests/run_rules.py plays the same match without the machine, in plain Python, and tests/rules/players.txt has
//   what comes out.

// of a player, beside the engine's own fields
.float shots, hits, deaths, streak, best_streak, respawn_at, bounces, number;
.entity last_attacker;
.vector home;
// which of its numbers a player is ranked by
..float ranked_by;

string home_name = "Home";
string guest_name = "Guests";
entity players, leader;
float player_count, frames, red, blue, over, frag_limit, arena;

void(string text) bprint;
void() alive, dead;
vector(float side) kick;
entity(entity from) next_enemy;
void(entity attacker, entity victim) killed;
void(entity attacker, entity victim, float damage) hit;
void() check_rules;

// self joins at the head of the chain.
void() ClientConnect =
{
	player_count = player_count + 1;
	self.classname = "player";
	self.number = player_count;
	self.team = 2 - (player_count & 1);
	self.weapon = player_count & 3;
	self.shots = player_count & 7;
	self.max_health = 60 + 5 * (player_count & 7);
	self.home_x = 16 * player_count - 264;
	self.home_y = 8 * self.team;
	self.home_z = 24;
	if (player_count & 1)
		self.ranked_by = frags;
	else
		self.ranked_by = hits;
	self.chain = players;
	players = self;
	PutClientInServer();
};

// self begins, or begins anew.
void() PutClientInServer =
{
	self.health = self.max_health;
	self.armorvalue = 25;
	self.deadflag = 0;
	self.streak = 0;
	self.enemy = world;
	self.origin = self.home;
	self.velocity = kick(self.team);
	self.think = alive;
};

vector(float side) kick =
{
	local vector direction;

	direction = '64 32 0';
	if (side == 2)
		direction = direction * -1;
	return direction;
};

void() StartFrame =
{
	local entity player, before;

	before = self;
	frames = frames + 1;
	player = players;
	while (player != world)
	{
		self = player;
		self.think();
		player = player.chain;
	}
	self = before;
	check_rules();
};

// A player on the field: moves, recovers, and shoots now and then.
void() alive =
{
	local entity victim;

	self.origin = self.origin + self.velocity * frametime;
	if (self.origin * self.origin > arena * arena)
	{
		self.velocity = self.velocity * -1;
		self.bounces = self.bounces + 1;
	}
	if (self.health < self.max_health)
		self.health = self.health + 1;
	self.shots = self.shots + 1;
	if (self.shots & 1)
		return;
	victim = next_enemy(self);
	if (victim == world)
		return;
	self.enemy = victim;
	hit(self, victim, 30 + 6 * self.weapon);
};

// A player off the field waits.
void() dead =
{
	if (time >= self.respawn_at)
		PutClientInServer();
};

// The next living player of the other side along the chain, from the head again where it ends; world if there is none.
entity(entity from) next_enemy =
{
	local entity other_player;
	local float looked;

	other_player = from;
	looked = 0;
	while (looked < player_count)
	{
		other_player = other_player.chain;
		if (other_player == world)
			other_player = players;
		if (other_player.team != from.team)
			if (!other_player.deadflag)
				return other_player;
		looked = looked + 1;
	}
	return world;
};

// Half of the damage goes to the armour, as far as it reaches.
void(entity attacker, entity victim, float damage) hit =
{
	local float absorbed;

	absorbed = damage / 2;
	if (absorbed > victim.armorvalue)
		absorbed = victim.armorvalue;
	victim.armorvalue = victim.armorvalue - absorbed;
	victim.health = victim.health - (damage - absorbed);
	victim.last_attacker = attacker;
	attacker.hits = attacker.hits + 1;
	if (victim.health <= 0)
		killed(attacker, victim);
};

void(entity attacker, entity victim) killed =
{
	victim.deaths = victim.deaths + 1;
	victim.deadflag = 1;
	victim.velocity = '0 0 0';
	victim.respawn_at = time + 1.5;
	victim.think = dead;
	attacker.frags = attacker.frags + 1;
	attacker.streak = attacker.streak + 1;
	if (attacker.streak > attacker.best_streak)
		attacker.best_streak = attacker.streak;
	if (attacker.team == 1)
		red = red + 1;
	else
		blue = blue + 1;
	if (attacker.frags > leader.frags)
		leader = attacker;
	if (victim.netname != attacker.netname)
		bprint(victim.netname);
};

void() check_rules =
{
	if (red >= frag_limit)
		over = 1;
	if (blue >= frag_limit)
		over = 2;
};

// The most of the number that a player is ranked by.
float() best_rank =
{
	local entity player;
	local float best;

	best = 0;
	player = players;
	while (player != world)
	{
		if (player.(player.ranked_by) > best)
			best = player.(player.ranked_by);
		player = player.chain;
	}
	return best;
};

// The leader's points, red's and blue's.
vector() EndMatch =
{
	local vector result;

	result_x = leader.frags;
	result_y = red;
	result_z = blue;
	return result;
};

string() leader_name =
{
	return leader.netname;
};

// A rule that goes wrong: it has written a field before it reads one of an entity that isn't there.
float(entity absent) broken =
{
	self.bounces = 0;
	return absent.frags;
};

void(string text) bprint = #23;
