// A MiB of data beside a program: with it the region for moved code is out of a JAL's reach, unless it is put below the text.
static char room[1 << 20];

__attribute__((used)) char *far(long k) { return room + k; }
