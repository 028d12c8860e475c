// Another author's names, for teams.qc. "Reds" is the team of teams_home.qc.

string guest_side = "Reds";
string guest_rival = "Greens";
