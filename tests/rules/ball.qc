// A ball that falls and bounces: position and velocity after a number of steps of a quarter second. At the floor, height 0, the
// height is mirrored and half of the speed is lost. The result is the position. All numbers are sums of powers of two, so no
// step is rounded.
//
//   nine steps from height 4 with velocity '2 1 0', gravity 8, so that each step takes 2 from the vertical velocity:
//   velocity  -2   -4   -6   -8     2    0    -2   -4   -6
//   height     3.5  2.5  1   -1     1.5  1.5   1    0   -1.5
//   after                     1; 4                        1.5; 3
//
// so the ball is at '4.5 2.25 1.5', after two bounces.

float STEP = 0.25;
float KEPT = 0.5;
vector GRAVITY = '0 0 -8';
vector position, speed;
float bounces;

void() move;

vector() fly =
{
	local float left;

	position = '0 0 4';
	speed = '2 1 0';
	bounces = 0;
	left = 9;
	while (left > 0)
	{
		move();
		left = left - 1;
	}
	return position;
};

void() move =
{
	speed = speed + GRAVITY * STEP;
	position = position + STEP * speed;
	if (position_z < 0)
	{
		position_z = 0 - position_z;
		speed_z = 0 - speed_z * KEPT;
		bounces = bounces + 1;
	}
};

// The work that the speed stands for, per unit of mass: half of its square.
float(vector of) energy =
{
	return 0.5 * (of * of);
};
