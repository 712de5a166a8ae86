/* Runs the Lua program that is the input. */
#include <stdio.h>
#include "lua.h"
#include "lauxlib.h"
#include "lualib.h"

int main(void)
{
    static char text[1 << 16];
    size_t length = 0;
    for (int c; length < sizeof text && (c = getchar()) != EOF; length++)
        text[length] = c;
    lua_State *state = luaL_newstate();
    if (!state)
        return 1;
    luaL_openlibs(state);
    if (luaL_loadbuffer(state, text, length, "input") || lua_pcall(state, 0, 0, 0)) {
        fprintf(stderr, "%s\n", lua_tostring(state, -1));
        return 2;
    }
    lua_close(state);
    return 0;
}
