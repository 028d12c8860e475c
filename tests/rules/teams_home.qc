// One author's names, for teams.qc.

string home_side = "Reds";
string home_rival = "Blues";
string home_sponsor = "";
