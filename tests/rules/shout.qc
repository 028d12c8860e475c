// One text argument for a builtin, compiled twice. With -O0 the compiler copies it by a StoreV into the argument cells, which checks no
// types there: the call is handed over (builtin 23). Without it, as by default, it copies by a StoreF, which reads a float where
// the text has a definition as a string: refused 16.

void(string text) bprint;

void() shout =
{
	bprint("Goal!\n");
};

void(string text) bprint = #23;
