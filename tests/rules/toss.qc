// A toss of a coin, by the host: the machine has no builtins, so it hands them over and waits. The show program has no host, and its
// line says builtin 7 (random).
//
//   Where the host answers 0.25, the home side kicks off (1); where it answers 0.75, the guests do (2). Then the host is handed
//   builtin 23 (bprint) with the text.

float() random;
void(string text) bprint;
float tosses, kick_off;

float() toss =
{
	tosses = tosses + 1;
	kick_off = 1;
	if (random() >= 0.5)
		kick_off = 2;
	if (kick_off == 1)
		bprint("The home side kicks off.\n");
	else
		bprint("The guests kick off.\n");
	return kick_off;
};

float() random = #7;
void(string text) bprint = #23;
